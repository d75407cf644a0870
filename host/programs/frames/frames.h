#define KNOWN_SIZE (4 * 1024)
