/* A user of the library in C++. */
#include <icysixel.h>

int main()
{
    icysixel decoder = {};
    uint32_t code = icysixel_new(&decoder);
    icysixel_free(&decoder);
    return code;
}
