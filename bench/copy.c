/* What `nd_replay copy` does with a stack of `nd_replay gen`, as a plain program that keeps the whole file in memory, too. Usage: copy STACK FILE. */
#include "layout.h"

#ifndef SIDE
#define SIDE 1024
#endif
enum { FRAME = SIDE * SIDE };

int main(int argc, char **argv) {
    if (argc != 3) return 1;
    size_t size;
    uint8_t *stack = whole(argv[1], &size);
    FILE *file = fopen(argv[2], "wb");
    if (!file) die("open");
    uint32_t frames = frames_of(size, FRAME);
    header(file, frames, SIDE, 1, 0);
    for (uint32_t k = 0; k < frames; k++) row(file, k, frame_of(stack, k, FRAME), FRAME);
    if (fclose(file)) die("close");
    printf("frames %u\n", frames);
}
