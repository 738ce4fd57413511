/* What a pump's signals go through. */
int filtered(int sample);
int limited(int value, int least, int most);
unsigned checked(const unsigned char *bytes, int count);
int written(unsigned number, unsigned char *place);
