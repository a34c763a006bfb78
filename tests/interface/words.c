/* The small interface's refusals, by their names, and one that it does not have. */
#include <stdio.h>
#include <vrikshonem_refusals.h>

int main(void) {
    const uint32_t all[] = {VRK_ANSWERED, VRK_TOO_SHORT, VRK_AT_FIRST, VRK_AT_LAST, 2};
    for (size_t k = 0; k < sizeof all / sizeof all[0]; k++) printf("%u %s\n", (unsigned)all[k], vrk_words(all[k]));
    return 0;
}
