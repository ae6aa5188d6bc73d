/* Moves what is linked behind it by PLACE bytes. */
#define TEXT(x) #x
#define SKIP(x) ".text\n.skip " TEXT(x) "\n"

__asm__(SKIP(PLACE));
