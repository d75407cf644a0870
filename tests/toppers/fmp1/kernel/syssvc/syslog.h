#define LOG_UPTO(level)	((level) * 2 + 1)
