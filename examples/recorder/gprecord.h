/* What a program may tell the recorder of itself: operations on objects, and regions.
 *
 *     gp_op("close", "log");                  the event  op close log
 *     gp_op("use", gp_at(file));              an object by its address: the recorder finds its name
 *     gp_op("left", gp_nth("p", i));          the object p0, p1, ..
 *     gp_begin("withdraw"); gp_end("withdraw");
 *     gp_record(0); gp_record(1);             accesses are not recorded in between
 *
 * An operation has up to four objects. A program that is built without the recorder has nothing of all
 * this in it: the words of these macros are not even computed. */
#ifndef GPRECORD_H
#define GPRECORD_H

#ifdef GPRECORD

#ifdef __cplusplus
extern "C" {
#endif
__attribute__((sentinel)) void gprecord_op(const char *name, ...);
void gprecord_begin(const char *region);
void gprecord_end(const char *region);
void gprecord_record(int wanted);
const char *gprecord_at(const volatile void *address);
const char *gprecord_nth(const char *word, long number);
#ifdef __cplusplus
}
#endif

#define gp_op(...) gprecord_op(__VA_ARGS__, (const char *)0)
#define gp_begin(region) gprecord_begin(region)
#define gp_end(region) gprecord_end(region)
#define gp_record(wanted) gprecord_record(wanted)
#define gp_at(address) gprecord_at(address)
#define gp_nth(word, number) gprecord_nth(word, number)

#else

#define gp_op(...) ((void)0)
#define gp_begin(region) ((void)0)
#define gp_end(region) ((void)0)
#define gp_record(wanted) ((void)0)

#endif

#endif
