/* Judges the file that it is given, and takes a group of two nodes through a broadcast.
 * gcc example.c libcastgroup.a -o example */
#include "castgroup.h"
#include <stdio.h>

static uint8_t record[67108864];

int main(int count, char **words) {
    FILE *file = count == 2 ? fopen(words[1], "rb") : NULL;
    if (file == NULL) return CAST_MISUSED;
    size_t length = fread(record, 1, sizeof record, file);
    fclose(file);
    struct cast_verdict verdict;
    uint32_t status = cast_judge(record, length, &verdict);
    if (status == CAST_DONE) puts("good");
    if (status == CAST_BAD) printf("bad %llu %llu\n", (unsigned long long)verdict.line, (unsigned long long)verdict.rule);

    struct cast_world world = CAST_EMPTY;
    struct cast_config config = CAST_CONFIG(2, 0);
    struct cast_event order = {.kind = CAST_ORDER, .node = 0, .item = CAST_DATA};
    struct cast_reply reply;
    struct cast_item item;
    uint64_t fault, delivered = 0;
    char bytes[6] = "";
    cast_world_new(&world, &config, &fault);
    cast_world_step(&world, &order, "hello", 5, &reply);
    cast_world_round(&world, &reply);
    cast_world_delivered(&world, 1, 0, &delivered);
    cast_world_item(&world, 1, 0, 0, &item, bytes, 5);
    cast_world_drop(&world);
    printf("node 1 delivered %llu: %s\n", (unsigned long long)delivered, bytes);
    return (int)status;
}
