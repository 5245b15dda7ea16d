/* Prints the hash of each game file: hash FILE.. */
#include <gamefile.h>

#include <stdio.h>
#include <stdlib.h>

int main(int argc, char **argv)
{
    int status = 0;
    for (int i = 1; i < argc; i++) {
        static uint8_t game[(1 << 24) + 1];
        FILE *f = fopen(argv[i], "rb");
        if (f == NULL) {
            perror(argv[i]);
            return 2;
        }
        size_t n = fread(game, 1, sizeof game, f);
        int failed = ferror(f) || n == sizeof game;
        fclose(f);
        if (failed) {
            fprintf(stderr, "%s: cannot be read, or is larger than 16 MiB\n", argv[i]);
            return 2;
        }

        char hash[65];
        gamefile_fault fault;
        switch (gamefile_hash(game, n, 0, hash, &fault)) {
        case GAMEFILE_OK:
            printf("%s  %s\n", hash, argv[i]);
            break;
        case GAMEFILE_REFUSED:
            fprintf(stderr, "%s: E%u at %zu..%zu: %s\n", argv[i], (unsigned)fault.code, fault.start,
                    fault.end, gamefile_message(fault.code, fault.expected));
            status = 1;
            break;
        default:
            fprintf(stderr, "%s: out of memory\n", argv[i]);
            return 2;
        }
    }
    return status;
}
