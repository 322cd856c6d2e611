/* Runs the harness on files, without a fuzzer: replay [--cases FILE] FILE...
 * With --cases the continues from damaged states, and their answers, are added to a file. */
#include <string.h>

#include "cases.h"
#include "file.h"

int LLVMFuzzerInitialize(int *count, char ***words);
int LLVMFuzzerTestOneInput(const uint8_t *data, size_t size);

int main(int count, char **words) {
    int first = 1;
    LLVMFuzzerInitialize(&count, &words);
    if (count > 2 && strcmp(words[1], "--cases") == 0) {
        cases = fopen(words[2], "a");
        if (!cases)
            fail(words[2]);
        first = 3;
    }
    for (int i = first; i < count; i++) {
        size_t size;
        uint8_t *data = read_file(words[i], &size);
        LLVMFuzzerTestOneInput(data, size);
        free(data);
    }
    if (cases && fclose(cases) != 0)
        fail(words[2]);
    printf("replay: %d files, every promise kept\n", count - first);
    return 0;
}
