#include <stdio.h>
#include "canopyrail.h"

int main(void)
{
    static const uint8_t nodo[] = "0000000001| |+|000000100|+|0000000200| |        \r\n";
    /* the files' bytes, in the order of their numbers; those not named here are absent: {NULL, 0} */
    canopyrail_bytes files[CANOPYRAIL_FILES] = {[CANOPYRAIL_NODO - 1] = {nodo, sizeof nodo - 1}};
    uint64_t a = canopyrail_judge(files, CANOPYRAIL_FILES);
    if (a == CANOPYRAIL_FINE)
        puts("accepted");
    else
        printf("reason %d in file %d, record %d, field %d\n", (int)canopyrail_reason(a), (int)canopyrail_file(a),
               (int)canopyrail_record(a), (int)canopyrail_field(a));
}
