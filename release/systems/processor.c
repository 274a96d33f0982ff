/* What the `main` of a compiled program for x86-64 reads to find out whether the processor has what it was compiled for:
 * four registers of CPUID, and the bits of each that programs may use. glibc has this function. The bits that are read are
 * of instructions that no system has to allow. */
#include <cpuid.h>
#include <stdint.h>
#include <string.h>

const uint32_t *__x86_get_cpuid_feature_leaf(unsigned leaf);

const uint32_t *__x86_get_cpuid_feature_leaf(unsigned leaf)
{
    static const unsigned numbers[] = {1, 7, 0x80000001};
    static uint32_t registers[3][8];
    static const uint32_t none[8];
    uint32_t *found;
    if (leaf > 2)
        return none;
    found = registers[leaf];
    if (!__get_cpuid_count(numbers[leaf], 0, found, found + 1, found + 2, found + 3))
        return none;
    memcpy(found + 4, found, 4 * sizeof *found);
    return found;
}
