/* Made by tools/interface.py --write; not by hand. The functions, and of each type of answer the halves of words that count. */
#ifndef FUNCTIONS_H
#define FUNCTIONS_H

#define EACH_FUNCTION(F) \
    F(cuc_read) \
    F(cryosat_read) \
    F(siral_read) \
    F(goce_read) \
    F(obet_read) \
    F(sbt_read) \
    F(cuc_write) \
    F(cryosat_write) \
    F(siral_write) \
    F(goce_write) \
    F(obet_write) \
    F(sbt_write) \
    F(proteus_read) \
    F(proteus_write) \
    F(goce_date) \
    F(goce_count) \
    F(decimal_read) \
    F(decimal_write) \
    F(sbt_date) \
    F(sbt_tick) \
    F(list_accepted) \
    F(change) \
    F(cuc_fields_read) \
    F(cuc_fields_write) \
    F(proteus_fields_read) \
    F(proteus_fields_write) \
    F(cryosat_fields_read) \
    F(cryosat_fields_write) \
    F(siral_fields_read) \
    F(siral_fields_write) \
    F(siral_run) \
    F(season_read) \
    F(season_write) \
    F(season_covering) \
    F(text_read) \
    F(text_write)

enum {
    halves_vrk_time = 0x37F,
    halves_vrk_count = 0x0D,
    halves_vrk_written = 0x0D,
    halves_vrk_decimal = 0x0D,
    halves_uint32_t = 0x01,
    halves_vrk_cuc_fields = 0x07,
    halves_vrk_proteus_fields = 0x1F,
    halves_vrk_cryosat_fields = 0x0F,
    halves_vrk_siral_fields = 0x1F,
    halves_vrk_run = 0x3D,
    halves_vrk_cover = 0x3D,
};

#endif
