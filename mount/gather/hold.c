/* While the store's disk is full a server gets no request that takes room, so that it has the room of the reserve for those that give
 * some back. A request that is kept back is dropped: the kernel sends it again to the server that fusekeep-mount starts when there is
 * room. So is one at which such a server ended for lack of room, until there is more than then. */
#include "gather.h"
#include <linux/fuse.h>
#include <string.h>

/* Requests that bring content. One that makes a file is given out: it takes little, and the kernel keeps the directory locked while it
 * waits, so that nothing could be removed there. */
bool takes_room(uint32_t opcode) {
  return opcode == FUSE_WRITE || opcode == FUSE_FALLOCATE || opcode == FUSE_COPY_FILE_RANGE;
}

/* A file that was removed while it was open goes with its last handle. */
static bool gives_room(uint32_t opcode) {
  bool may_end_file = opcode == FUSE_RELEASE || opcode == FUSE_FORGET || opcode == FUSE_BATCH_FORGET;
  return opcode == FUSE_UNLINK || opcode == FUSE_RMDIR || opcode == FUSE_SETATTR || opcode == FUSE_RENAME || opcode == FUSE_RENAME2 ||
         (may_end_file && report()->removals > 0);
}

static bool is_kept_back(uint64_t id) {
  size_t i = 0;
  while (i < KEPT_BACK && report()->kept_back[i] != 0 && report()->kept_back[i] != id) i++;
  return i < KEPT_BACK && id != 0 && report()->kept_back[i] == id;
}

bool keep_back(const char *message, size_t size) {
  struct fuse_in_header head;
  if (size < sizeof head) return false;
  memcpy(&head, message, sizeof head);
  if (is_kept_back(plain_id(head.unique))) return true;
  if (!report()->is_full) return false;
  if (takes_room(head.opcode)) return true;
  if (gives_room(head.opcode)) report()->removals++;
  return false;
}
