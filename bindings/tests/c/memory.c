/* Makes the call of the line that is the standard input, once, and prints its status, its position and its text. */
#include "call.h"

int main(void) {
    static char line[1024];
    static uint8_t out[1024];
    qs_answer answer = {0, 0};
    if (fgets(line, sizeof line, stdin) == NULL)
        return 1;
    qs_call call = call_of(line);
    uint32_t status = make(&call, out, sizeof out, &answer);
    print_answer(status, &answer, out);
    return 0;
}
