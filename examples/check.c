#include <stdio.h>
#include "bounds.h"

int main(int argc, char **argv)
{
    static uint8_t model[10241], delivery[17409]; /* one byte more than any accepted file has */
    FILE *m = argc == 3 ? fopen(argv[1], "rb") : NULL, *d = argc == 3 ? fopen(argv[2], "rb") : NULL;
    size_t m_len = m ? fread(model, 1, sizeof model, m) : 0, d_len = d ? fread(delivery, 1, sizeof delivery, d) : 0;
    uint32_t code = bounds_check_delivery(model, m_len, delivery, d_len);
    printf("%u at %u, shortfall %lld\n", code / 65536, code % 65536, (long long)bounds_delivery_shortfall(model, m_len, delivery, d_len));
    return code != 0;
}
