/* In the place of the pages that lwIP's server brings along: none. */
#define FS_ROOT ((const struct fsdata_file *)0)
