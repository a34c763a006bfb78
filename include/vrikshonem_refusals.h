/* Made by tools/interface.py --write; not by hand. The refusals of vrikshonem.h, from refusals.txt.
 *
 * The first that applies in this order is given, and never another. */
#ifndef VRIKSHONEM_REFUSALS_H
#define VRIKSHONEM_REFUSALS_H

#include <stdint.h>

enum {
    VRK_ANSWERED = 0,
    VRK_LENGTH_IS_NONE = 1, /* input length is none of the layout's */
    VRK_MARKER_WRONG = 2, /* marker byte or zero bits wrong */
    VRK_FIELD_OVER = 3, /* a field over its limit, bad character, date not in the calendar */
    VRK_SEASON_BROKEN = 14, /* a rule of the season file broken */
    VRK_NOT_ONE_SECOND = 16, /* a run's three fields differ, or a total above 484,848 units */
    VRK_DECIMAL_NOT_FINITE = 4, /* decimal day infinite or not a number */
    VRK_LIST_NOT_ACCEPTED = 5, /* leap list not accepted */
    VRK_CORRELATION_NOT_ACCEPTED = 6, /* correlation not accepted */
    VRK_OUTSIDE_SPAN = 7, /* input time or receipt outside its span */
    VRK_NO_ENTRY = 15, /* no entry covers the receipt */
    VRK_NOT_IN_FORCE = 8, /* correlation not in force */
    VRK_RESULT_LATER = 17, /* result later than receipt */
    VRK_LIST_EXPIRED = 9, /* leap list expired */
    VRK_SECOND_LACKING = 10, /* UTC second that its day lacks */
    VRK_RESULT_OUTSIDE = 11, /* result outside its scale's span */
    VRK_NO_IMAGE = 12, /* time has no image */
    VRK_OUTPUT_SHORTER = 13 /* output slice shorter than the image */
};

/* What is wrong, in words. */
static inline const char *vrk_words(uint32_t refusal) {
    switch (refusal) {
    case VRK_ANSWERED: return "answered";
    case VRK_LENGTH_IS_NONE: return "input length is none of the layout's";
    case VRK_MARKER_WRONG: return "marker byte or zero bits wrong";
    case VRK_FIELD_OVER: return "a field over its limit, bad character, date not in the calendar";
    case VRK_SEASON_BROKEN: return "a rule of the season file broken";
    case VRK_NOT_ONE_SECOND: return "a run's three fields differ, or a total above 484,848 units";
    case VRK_DECIMAL_NOT_FINITE: return "decimal day infinite or not a number";
    case VRK_LIST_NOT_ACCEPTED: return "leap list not accepted";
    case VRK_CORRELATION_NOT_ACCEPTED: return "correlation not accepted";
    case VRK_OUTSIDE_SPAN: return "input time or receipt outside its span";
    case VRK_NO_ENTRY: return "no entry covers the receipt";
    case VRK_NOT_IN_FORCE: return "correlation not in force";
    case VRK_RESULT_LATER: return "result later than receipt";
    case VRK_LIST_EXPIRED: return "leap list expired";
    case VRK_SECOND_LACKING: return "UTC second that its day lacks";
    case VRK_RESULT_OUTSIDE: return "result outside its scale's span";
    case VRK_NO_IMAGE: return "time has no image";
    case VRK_OUTPUT_SHORTER: return "output slice shorter than the image";
    default: return "a refusal that this version does not know";
    }
}

#endif
