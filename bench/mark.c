/* Apart from profile.c, so that the calls stay where they are. */
void mark(void);
void mark(void) {}
