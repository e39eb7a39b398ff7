/* The reference of `bindings/rust/run bench count`: a plain loop, compiled at -O3. */
#include <stddef.h>
#include <stdint.h>

size_t plain_count(const uint8_t *word, size_t length)
{
    size_t count = 0;
    for (size_t k = 0; k < length; k++)
        if (word[k] == 2)
            count++;
    return count;
}
