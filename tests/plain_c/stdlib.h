#ifdef __cplusplus
extern "C" {
#endif
void *malloc(__SIZE_TYPE__);
void free(void *);
#ifdef __cplusplus
}
#endif
