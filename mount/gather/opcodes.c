/* The opcodes of requests. */
#include "text.h"
#include <linux/fuse.h>

enum { SYNCFS = 50, TMPFILE = 51, STATX = 52 }; /* of newer headers of the kernel */

/* The requests by opcode: the bytes between header and names, and how many names follow. */
static const struct { const char *name; size_t before; int names; } opcodes[] = {
  [FUSE_LOOKUP] = {"LOOKUP", 0, 1},
  [FUSE_FORGET] = {"FORGET", 0, 0},
  [FUSE_GETATTR] = {"GETATTR", 0, 0},
  [FUSE_SETATTR] = {"SETATTR", 0, 0},
  [FUSE_READLINK] = {"READLINK", 0, 0},
  [FUSE_SYMLINK] = {"SYMLINK", 0, 2},
  [FUSE_MKNOD] = {"MKNOD", sizeof(struct fuse_mknod_in), 1},
  [FUSE_MKDIR] = {"MKDIR", sizeof(struct fuse_mkdir_in), 1},
  [FUSE_UNLINK] = {"UNLINK", 0, 1},
  [FUSE_RMDIR] = {"RMDIR", 0, 1},
  [FUSE_RENAME] = {"RENAME", sizeof(struct fuse_rename_in), 2},
  [FUSE_LINK] = {"LINK", sizeof(struct fuse_link_in), 1},
  [FUSE_OPEN] = {"OPEN", 0, 0},
  [FUSE_READ] = {"READ", 0, 0},
  [FUSE_WRITE] = {"WRITE", 0, 0},
  [FUSE_STATFS] = {"STATFS", 0, 0},
  [FUSE_RELEASE] = {"RELEASE", 0, 0},
  [FUSE_FSYNC] = {"FSYNC", 0, 0},
  [FUSE_SETXATTR] = {"SETXATTR", FUSE_COMPAT_SETXATTR_IN_SIZE, 1},
  [FUSE_GETXATTR] = {"GETXATTR", sizeof(struct fuse_getxattr_in), 1},
  [FUSE_LISTXATTR] = {"LISTXATTR", 0, 0},
  [FUSE_REMOVEXATTR] = {"REMOVEXATTR", 0, 1},
  [FUSE_FLUSH] = {"FLUSH", 0, 0},
  [FUSE_INIT] = {"INIT", 0, 0},
  [FUSE_OPENDIR] = {"OPENDIR", 0, 0},
  [FUSE_READDIR] = {"READDIR", 0, 0},
  [FUSE_RELEASEDIR] = {"RELEASEDIR", 0, 0},
  [FUSE_FSYNCDIR] = {"FSYNCDIR", 0, 0},
  [FUSE_ACCESS] = {"ACCESS", 0, 0},
  [FUSE_CREATE] = {"CREATE", sizeof(struct fuse_create_in), 1},
  [FUSE_INTERRUPT] = {"INTERRUPT", 0, 0},
  [FUSE_DESTROY] = {"DESTROY", 0, 0},
  [FUSE_BATCH_FORGET] = {"BATCH_FORGET", 0, 0},
  [FUSE_FALLOCATE] = {"FALLOCATE", 0, 0},
  [FUSE_READDIRPLUS] = {"READDIRPLUS", 0, 0},
  [FUSE_RENAME2] = {"RENAME2", sizeof(struct fuse_rename2_in), 2},
  [FUSE_LSEEK] = {"LSEEK", 0, 0},
  [FUSE_COPY_FILE_RANGE] = {"COPY_FILE_RANGE", 0, 0},
  [SYNCFS] = {"SYNCFS", 0, 0},
  [TMPFILE] = {"TMPFILE", sizeof(struct fuse_create_in), 1},
  [STATX] = {"STATX", 0, 0},
};

static bool is_known(uint32_t opcode) {
  return opcode < sizeof opcodes / sizeof *opcodes && opcodes[opcode].name;
}

const char *name_of_opcode(uint32_t opcode) {
  return is_known(opcode) ? opcodes[opcode].name : NULL;
}

size_t place_of_names(uint32_t opcode, int *count) {
  *count = is_known(opcode) ? opcodes[opcode].names : 0;
  return is_known(opcode) ? opcodes[opcode].before : 0;
}

bool is_silent(uint32_t opcode) {
  return opcode == FUSE_FORGET || opcode == FUSE_BATCH_FORGET || opcode == FUSE_INTERRUPT;
}
