/* host FILE: the score of each play in a map file. */
#include "popejoanplum.h"
#include <inttypes.h>
#include <stdio.h>

int main(int argc, char **argv) {
    static uint8_t bytes[1 << 24];
    FILE *file = argc == 2 ? fopen(argv[1], "rb") : NULL;
    if (!file)
        return 2;
    size_t length = fread(bytes, 1, sizeof bytes, file);
    if (!feof(file)) /* an error, or a file that is longer than the room for it */
        return 2;
    pjp_play_answer play = pjp_score_play_at(bytes, length, 0);
    for (uint64_t i = 0; play.status == PJP_GOOD; play = pjp_score_play_at(bytes, length, ++i))
        printf("play %" PRIu64 ": %" PRIu64 " objects, accuracy %.15g, misses %.15g\n", i, play.attributes.object_count,
               play.estimates.accuracy, play.estimates.effective);
    if (play.status != PJP_NO_PLAY)
        printf("refused with %d at byte %zu\n", play.status, play.offset);
    return play.status != PJP_NO_PLAY;
}
