/* A run in C: a keepalive is read and handed on. */
#include "rufflesquash.h"
#include <inttypes.h>
#include <stdio.h>

static const uint8_t stream[] = {'d', 0, 0, 0, 22, 'k', 0, 0, 0, 0, 0, 0, 0, 0x10, 0, 0, 0, 0, 0, 0, 0, 0, 0};

int main(void) {
    static const uint64_t settings[RUFFLESQUASH_SETTINGS_WORDS] = {
        [RUFFLESQUASH_SETTINGS_STATUS_INTERVAL_NANOS] = 10000000000,
        [RUFFLESQUASH_SETTINGS_IDLE_WAKEUP_INTERVAL_NANOS] = 10000000000,
        [RUFFLESQUASH_SETTINGS_MAX_MESSAGE_BYTES] = 256,
    };
    uint64_t run[RUFFLESQUASH_RUN_WORDS];
    uint64_t answer[RUFFLESQUASH_ANSWER_WORDS];
    uint8_t payload[256], out[39], text[17];
    size_t at = 0;
    if (rufflesquash_abi() != RUFFLESQUASH_ABI || rufflesquash_already_open(settings, 0, run) != 0) return 1;
    for (uint64_t moment = 1; rufflesquash_state(run) != RUFFLESQUASH_STATE_ENDED; moment++) {
        rufflesquash_step(run, moment, 0, false, RUFFLESQUASH_QUEUE_FREE, true, stream + at, sizeof stream - at, payload, sizeof payload, out,
                          sizeof out, answer);
        at += answer[RUFFLESQUASH_ANSWER_TAKEN];
        if (answer[RUFFLESQUASH_ANSWER_EVENT] == RUFFLESQUASH_EVENT_KEEP_ALIVE) {
            uint64_t n;
            if (rufflesquash_display_position(answer[RUFFLESQUASH_ANSWER_EVENT_1], text, sizeof text, &n) != 0) return 1;
            printf("keepalive, end %.*s\n", (int)n, (const char *)text);
        }
    }
    printf("END %" PRIu64 "\n", answer[RUFFLESQUASH_ANSWER_REFUSAL]);
    return answer[RUFFLESQUASH_ANSWER_REFUSAL] == 8 ? 0 : 1;
}
