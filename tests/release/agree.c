/* What the header and the library of a release call themselves, and what they make of a run. */
#include "door.h"

#include "file.h"
#include "result.h"

int main(int words, char **word) {
    int64_t store[64];
    int32_t output[1] = {7};
    const int32_t input[] = {1234, 19800};
    size_t length;
    uint8_t *image;

    if (words != 2)
        return 2;
    image = read_file(word[1], &length);
    printf("header: door %s interface %d\nlibrary: %s\n", DOOR_VERSION, DOOR_INTERFACE, door_version);
    print_result("run", door_run(image, length, input, 2, store, 64, output, 1, 10000));
    printf("output: %d\n", (int)output[0]);
    free(image);
    return 0;
}
