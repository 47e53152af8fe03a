/* assert: if it fails, the process ends, this thread by EBREAK. It may be included again. */
#undef assert
#ifdef NDEBUG
#define assert(condition) ((void)0)
#else
void ir_assertion_failed(const char *what, const char *file, int line, const char *function) __attribute__((noreturn));
#define assert(condition) ((condition) ? (void)0 : ir_assertion_failed(#condition, __FILE__, __LINE__, __func__))
#endif
#undef static_assert
#define static_assert _Static_assert
