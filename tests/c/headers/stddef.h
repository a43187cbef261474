/* What the C programs use of this header. The kit's clang has none of its own. */
#pragma once
typedef __SIZE_TYPE__ size_t;
