/* A file that knows nothing of the kernel, with C's own assertion. */
#include <assert.h>

void c_claim(int n)
{
    assert(n == 3);
}
