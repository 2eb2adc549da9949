/* Makes the call of each line of the standard input, and prints its status, its position and its text. */
#include "call.h"

int main(void) {
    char line[1024];
    if (qs_version() != QS_VERSION)
        printf("the header is of another version: ");
    while (fgets(line, sizeof line, stdin) != NULL) {
        static uint8_t out[1024];
        qs_answer answer = {0, 0};
        qs_call call = call_of(line);
        uint32_t small = make(&call, NULL, 0, &answer);
        size_t wanted = answer.len;
        uint32_t status = make(&call, out, sizeof out, &answer);
        if (answer.len != wanted || (status == QS_OK && wanted > 0 && small != QS_TOO_SMALL))
            printf("a buffer that is too small was not reported: ");
        print_answer(status, &answer, out);
    }
    return 0;
}
