#define BLOCK_SIZE 20
