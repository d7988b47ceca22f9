/*
 * What a library is: its version, its rules, the commit that it was made from, and the toolchain that proved and compiled it.
 * Nothing is proved of this folder. It includes no header but those of freestanding/, so that the toolchain's compiler alone makes it
 * for every processor; the gate holds it to include/hverolda.h.
 */
const char *hverolda_version(void);

const char *hverolda_version(void)
{
    return IDENTITY;
}
