#ifdef __cplusplus
extern "C" {
#endif
enum { RTLD_NOW = 2 };
void *dlopen(const char *, int);
void *dlsym(void *, const char *);
#ifdef __cplusplus
}
#endif
