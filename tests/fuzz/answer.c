// The evaluator as a program, with the words of `dmljob`: run [--workers N] [--chunk N] [--arena N] | decode HEX
#include "evaluator.h"

#include <stdio.h>
#include <stdlib.h>
#include <string.h>

static void read_all(struct text *text) {
    char bytes[65536];
    size_t length;
    while ((length = fread(bytes, 1, sizeof bytes, stdin)) > 0)
        text_bytes(text, bytes, length);
}

int main(int count, char **words) {
    static struct tally tally;
    struct answer answer = {0};
    struct text script = {0};
    struct settings settings = {1048576, 4096, 4};
    text_bytes(&script, "", 0);
    if (count == 3 && strcmp(words[1], "decode") == 0) {
        evaluate_decode(words[2], &answer);
    } else if (count >= 2 && count % 2 == 0 && strcmp(words[1], "run") == 0) {
        for (int i = 2; i + 1 < count; i += 2) {
            uint64_t number = strtoull(words[i + 1], NULL, 10);
            if (strcmp(words[i], "--workers") == 0)
                settings.workers = number;
            else if (strcmp(words[i], "--chunk") == 0)
                settings.chunk = number;
            else if (strcmp(words[i], "--arena") == 0)
                settings.staging = number;
        }
        read_all(&script);
        evaluate_run(script.bytes, script.length, &settings, &answer, &tally);
    } else {
        fprintf(stderr, "usage: %s run [--workers N] [--chunk N] [--arena N] <SCRIPT, or %s decode HEX\n", words[0],
                words[0]);
        return 3;
    }
    fwrite(answer.out.bytes, 1, answer.out.length, stdout);
    fwrite(answer.err.bytes, 1, answer.err.length, stderr);
    return fflush(stdout) == 0 ? answer.status : 4;
}
