/* The entry from C. */
#include "framecheck.h"

#include <stdio.h>
#include <string.h>

int main(void) {
    uint8_t room[33];
    int ok = checker_answer(NULL, 0, NULL, 0) == 0;
    ok = ok && checker_answer((const uint8_t *)"0103E8", 6, room, sizeof room) == 3 && memcmp(room, "00\n", 3) == 0;
    ok = ok && checker_answer((const uint8_t *)"0103E8", 6, room, 32) == FRAMECHECK_ROOM_TOO_SHORT;
    ok = ok && framecheck_lines((const uint8_t *)"a\n\nb", 4) == 3 && strlen(framecheck_check_sentence(FRAMECHECK_NOT_LINKED)) > 0;
    ok = ok && framecheck_position_sentence(FRAMECHECK_EDGES_MEET) != NULL && framecheck_position_sentence(FRAMECHECK_OPEN_RING) == NULL;
    ok = ok && checker_answer((const uint8_t *)"0C00000001", 10, room, sizeof room) == 3 && memcmp(room, "02\n", 3) == 0;
    printf("%d passed, %d failed\n", ok, !ok);
    return !ok;
}
