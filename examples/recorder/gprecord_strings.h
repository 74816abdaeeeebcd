/* Stands before each source in C++: the functions of std::string are then made in the program, whose accesses are hooked,
 * and those in the library of libstdc++ are not used. It changes nothing where there is another library. */
#if defined(__cplusplus) && defined(__has_include)
#if __has_include(<bits/c++config.h>)
#include <bits/c++config.h>
#undef _GLIBCXX_EXTERN_TEMPLATE
#define _GLIBCXX_EXTERN_TEMPLATE -1
#endif
#endif
