/* Prints the numbers, sizes and places of this machine's headers, one a line, for `compare`:
 * `number NAME VALUE`, `size STRUCT BYTES`, `field STRUCT NAME PLACE WIDTH`, and `lacks NAME` for what the
 * header is too old for. */
#include <errno.h>
#include <fcntl.h>
#include <limits.h>
#include <linux/fs.h>
#include <linux/fuse.h>
#include <stddef.h>
#include <stdio.h>
#include <sys/stat.h>

#define NUMBER(name) printf("number %s %llu\n", #name, (unsigned long long)(name))
#define LACKS(name) printf("lacks %s\n", #name)
#define SIZE(type) printf("size %s %zu\n", #type, sizeof(struct type))
#define FIELD(type, name) \
	printf("field %s %s %zu %zu\n", #type, #name, offsetof(struct type, name), sizeof(((struct type *)0)->name))

/* the fields of the fuse_attr that a struct ends with */
#if FUSE_KERNEL_MINOR_VERSION >= 32
#define ATTR_FLAGS(type) FIELD(type, attr.flags)
#else
#define ATTR_FLAGS(type) LACKS(type.attr.flags)
#endif
#define ATTR(type) \
	do { \
		FIELD(type, attr.ino); \
		FIELD(type, attr.size); \
		FIELD(type, attr.blocks); \
		FIELD(type, attr.atime); \
		FIELD(type, attr.mtime); \
		FIELD(type, attr.ctime); \
		FIELD(type, attr.atimensec); \
		FIELD(type, attr.mtimensec); \
		FIELD(type, attr.ctimensec); \
		FIELD(type, attr.mode); \
		FIELD(type, attr.nlink); \
		FIELD(type, attr.uid); \
		FIELD(type, attr.gid); \
		FIELD(type, attr.rdev); \
		FIELD(type, attr.blksize); \
		ATTR_FLAGS(type); \
	} while (0)

static void opcodes(void)
{
	NUMBER(FUSE_LOOKUP);
	NUMBER(FUSE_FORGET);
	NUMBER(FUSE_GETATTR);
	NUMBER(FUSE_SETATTR);
	NUMBER(FUSE_MKNOD);
	NUMBER(FUSE_MKDIR);
	NUMBER(FUSE_UNLINK);
	NUMBER(FUSE_RMDIR);
	NUMBER(FUSE_RENAME);
	NUMBER(FUSE_OPEN);
	NUMBER(FUSE_READ);
	NUMBER(FUSE_WRITE);
	NUMBER(FUSE_RELEASE);
	NUMBER(FUSE_INIT);
	NUMBER(FUSE_OPENDIR);
	NUMBER(FUSE_READDIR);
	NUMBER(FUSE_RELEASEDIR);
	NUMBER(FUSE_INTERRUPT);
	NUMBER(FUSE_DESTROY);
	NUMBER(FUSE_NOTIFY_REPLY);
	NUMBER(FUSE_BATCH_FORGET);
	NUMBER(FUSE_RENAME2);
	NUMBER(FUSE_READLINK);
	NUMBER(FUSE_SYMLINK);
	NUMBER(FUSE_LINK);
	NUMBER(FUSE_STATFS);
	NUMBER(FUSE_FSYNC);
	NUMBER(FUSE_SETXATTR);
	NUMBER(FUSE_GETXATTR);
	NUMBER(FUSE_LISTXATTR);
	NUMBER(FUSE_REMOVEXATTR);
	NUMBER(FUSE_FLUSH);
	NUMBER(FUSE_FSYNCDIR);
	NUMBER(FUSE_ACCESS);
	NUMBER(FUSE_CREATE);
	NUMBER(FUSE_FALLOCATE);
	NUMBER(FUSE_READDIRPLUS);
	NUMBER(FUSE_LSEEK);
	NUMBER(FUSE_COPY_FILE_RANGE);
}

static void error_numbers(void)
{
	NUMBER(ENOENT);
	NUMBER(EBADF);
	NUMBER(EEXIST);
	NUMBER(ENOTDIR);
	NUMBER(EISDIR);
	NUMBER(EINVAL);
	NUMBER(ENFILE);
	NUMBER(EFBIG);
	NUMBER(ENOSPC);
	NUMBER(ENAMETOOLONG);
	NUMBER(ENOSYS);
	NUMBER(ENOTEMPTY);
	NUMBER(EPROTO);
	NUMBER(ESTALE);
}

static void bits(void)
{
	NUMBER(FATTR_MODE);
	NUMBER(FATTR_UID);
	NUMBER(FATTR_GID);
	NUMBER(FATTR_SIZE);
	NUMBER(FATTR_ATIME);
	NUMBER(FATTR_MTIME);
	NUMBER(FATTR_FH);
	NUMBER(FATTR_ATIME_NOW);
	NUMBER(FATTR_MTIME_NOW);
	NUMBER(FATTR_LOCKOWNER);
	NUMBER(FATTR_CTIME);
	NUMBER(FATTR_KILL_SUIDGID);
	NUMBER(FUSE_ASYNC_READ);
	NUMBER(FUSE_BIG_WRITES);
	NUMBER(FUSE_DO_READDIRPLUS);
	NUMBER(FUSE_READDIRPLUS_AUTO);
	NUMBER(FUSE_PARALLEL_DIROPS);
	NUMBER(FUSE_CACHE_SYMLINKS);
	NUMBER(FOPEN_KEEP_CACHE);
#ifdef FUSE_INIT_EXT
	NUMBER(FUSE_INIT_EXT);
#else
	LACKS(FUSE_INIT_EXT);
#endif
#ifdef FUSE_HAS_RESEND
	NUMBER(FUSE_HAS_RESEND);
#else
	LACKS(FUSE_HAS_RESEND);
#endif
#ifdef FUSE_UNIQUE_RESEND
	NUMBER(FUSE_UNIQUE_RESEND);
#else
	LACKS(FUSE_UNIQUE_RESEND);
#endif
	NUMBER(O_ACCMODE);
	NUMBER(O_RDONLY);
	NUMBER(O_WRONLY);
	NUMBER(O_RDWR);
	NUMBER(RENAME_NOREPLACE);
	NUMBER(RENAME_EXCHANGE);
	NUMBER(S_IFDIR);
	NUMBER(S_IFREG);
	NUMBER(S_IFCHR);
	NUMBER(S_IFBLK);
	NUMBER(S_IFIFO);
	NUMBER(S_IFSOCK);
	NUMBER(S_IFLNK);
	NUMBER(S_ISGID);
}

static void others(void)
{
	NUMBER(FUSE_KERNEL_VERSION);
#if FUSE_KERNEL_MINOR_VERSION >= 40
	/* a newer header has another minor, and the same layouts up to 40 */
	printf("number FUSE_KERNEL_MINOR_VERSION 40\n");
	NUMBER(FUSE_NOTIFY_RESEND);
#else
	LACKS(FUSE_KERNEL_MINOR_VERSION);
	LACKS(FUSE_NOTIFY_RESEND);
#endif
	NUMBER(FUSE_ROOT_ID);
	NUMBER(FUSE_NAME_OFFSET);
	NUMBER(NAME_MAX);
}

static void requests(void)
{
	SIZE(fuse_in_header);
	FIELD(fuse_in_header, len);
	FIELD(fuse_in_header, opcode);
	FIELD(fuse_in_header, unique);
	FIELD(fuse_in_header, nodeid);
	FIELD(fuse_in_header, uid);
	FIELD(fuse_in_header, gid);
	FIELD(fuse_in_header, pid);
#if FUSE_KERNEL_MINOR_VERSION >= 38
	FIELD(fuse_in_header, total_extlen);
	FIELD(fuse_in_header, padding);
#else
	LACKS(fuse_in_header.total_extlen);
	LACKS(fuse_in_header.padding);
#endif
	SIZE(fuse_forget_in);
	FIELD(fuse_forget_in, nlookup);
	SIZE(fuse_getattr_in);
	FIELD(fuse_getattr_in, getattr_flags);
	FIELD(fuse_getattr_in, dummy);
	FIELD(fuse_getattr_in, fh);
	SIZE(fuse_setattr_in);
	FIELD(fuse_setattr_in, valid);
	FIELD(fuse_setattr_in, padding);
	FIELD(fuse_setattr_in, fh);
	FIELD(fuse_setattr_in, size);
	FIELD(fuse_setattr_in, lock_owner);
	FIELD(fuse_setattr_in, atime);
	FIELD(fuse_setattr_in, mtime);
	FIELD(fuse_setattr_in, ctime);
	FIELD(fuse_setattr_in, atimensec);
	FIELD(fuse_setattr_in, mtimensec);
	FIELD(fuse_setattr_in, ctimensec);
	FIELD(fuse_setattr_in, mode);
	FIELD(fuse_setattr_in, unused4);
	FIELD(fuse_setattr_in, uid);
	FIELD(fuse_setattr_in, gid);
	FIELD(fuse_setattr_in, unused5);
	SIZE(fuse_mknod_in);
	FIELD(fuse_mknod_in, mode);
	FIELD(fuse_mknod_in, rdev);
	FIELD(fuse_mknod_in, umask);
	FIELD(fuse_mknod_in, padding);
	SIZE(fuse_mkdir_in);
	FIELD(fuse_mkdir_in, mode);
	FIELD(fuse_mkdir_in, umask);
	SIZE(fuse_rename_in);
	FIELD(fuse_rename_in, newdir);
	SIZE(fuse_rename2_in);
	FIELD(fuse_rename2_in, newdir);
	FIELD(fuse_rename2_in, flags);
	FIELD(fuse_rename2_in, padding);
	SIZE(fuse_open_in);
	FIELD(fuse_open_in, flags);
	FIELD(fuse_open_in, open_flags);
	SIZE(fuse_read_in);
	FIELD(fuse_read_in, fh);
	FIELD(fuse_read_in, offset);
	FIELD(fuse_read_in, size);
	FIELD(fuse_read_in, read_flags);
	FIELD(fuse_read_in, lock_owner);
	FIELD(fuse_read_in, flags);
	FIELD(fuse_read_in, padding);
	SIZE(fuse_write_in);
	FIELD(fuse_write_in, fh);
	FIELD(fuse_write_in, offset);
	FIELD(fuse_write_in, size);
	FIELD(fuse_write_in, write_flags);
	FIELD(fuse_write_in, lock_owner);
	FIELD(fuse_write_in, flags);
	FIELD(fuse_write_in, padding);
	SIZE(fuse_release_in);
	FIELD(fuse_release_in, fh);
	FIELD(fuse_release_in, flags);
	FIELD(fuse_release_in, release_flags);
	FIELD(fuse_release_in, lock_owner);
	SIZE(fuse_interrupt_in);
	FIELD(fuse_interrupt_in, unique);
	SIZE(fuse_batch_forget_in);
	FIELD(fuse_batch_forget_in, count);
	FIELD(fuse_batch_forget_in, dummy);
	SIZE(fuse_forget_one);
	FIELD(fuse_init_in, major);
	FIELD(fuse_init_in, minor);
	FIELD(fuse_init_in, max_readahead);
	FIELD(fuse_init_in, flags);
#if FUSE_KERNEL_MINOR_VERSION >= 36
	SIZE(fuse_init_in);
	FIELD(fuse_init_in, flags2);
	FIELD(fuse_init_in, unused);
	printf("size compat_init_in %zu\n", offsetof(struct fuse_init_in, flags2));
#else
	LACKS(fuse_init_in);
	LACKS(fuse_init_in.flags2);
	printf("size compat_init_in %zu\n", sizeof(struct fuse_init_in));
#endif
}

/* of opcodes outside the profile */
static void further_requests(void)
{
	SIZE(fuse_link_in);
	FIELD(fuse_link_in, oldnodeid);
	SIZE(fuse_fsync_in);
	FIELD(fuse_fsync_in, fh);
	FIELD(fuse_fsync_in, fsync_flags);
	FIELD(fuse_fsync_in, padding);
	SIZE(fuse_getxattr_in);
	FIELD(fuse_getxattr_in, size);
	FIELD(fuse_getxattr_in, padding);
	SIZE(fuse_flush_in);
	FIELD(fuse_flush_in, fh);
	FIELD(fuse_flush_in, unused);
	FIELD(fuse_flush_in, padding);
	FIELD(fuse_flush_in, lock_owner);
	SIZE(fuse_access_in);
	FIELD(fuse_access_in, mask);
	FIELD(fuse_access_in, padding);
	SIZE(fuse_create_in);
	FIELD(fuse_create_in, flags);
	FIELD(fuse_create_in, mode);
	FIELD(fuse_create_in, umask);
	FIELD(fuse_create_in, open_flags);
	SIZE(fuse_fallocate_in);
	FIELD(fuse_fallocate_in, fh);
	FIELD(fuse_fallocate_in, offset);
	FIELD(fuse_fallocate_in, length);
	FIELD(fuse_fallocate_in, mode);
	FIELD(fuse_fallocate_in, padding);
	SIZE(fuse_lseek_in);
	FIELD(fuse_lseek_in, fh);
	FIELD(fuse_lseek_in, offset);
	FIELD(fuse_lseek_in, whence);
	FIELD(fuse_lseek_in, padding);
	SIZE(fuse_copy_file_range_in);
	FIELD(fuse_copy_file_range_in, fh_in);
	FIELD(fuse_copy_file_range_in, off_in);
	FIELD(fuse_copy_file_range_in, nodeid_out);
	FIELD(fuse_copy_file_range_in, fh_out);
	FIELD(fuse_copy_file_range_in, off_out);
	FIELD(fuse_copy_file_range_in, len);
	FIELD(fuse_copy_file_range_in, flags);
	FIELD(fuse_setxattr_in, size);
	FIELD(fuse_setxattr_in, flags);
#ifdef FUSE_COMPAT_SETXATTR_IN_SIZE
	printf("size compat_setxattr_in %d\n", FUSE_COMPAT_SETXATTR_IN_SIZE);
#else
	printf("size compat_setxattr_in %zu\n", sizeof(struct fuse_setxattr_in));
#endif
}

static void answers(void)
{
	SIZE(fuse_out_header);
	FIELD(fuse_out_header, len);
	FIELD(fuse_out_header, error);
	FIELD(fuse_out_header, unique);
	SIZE(fuse_attr);
	FIELD(fuse_attr, ino);
	FIELD(fuse_attr, size);
	FIELD(fuse_attr, blocks);
	FIELD(fuse_attr, atime);
	FIELD(fuse_attr, mtime);
	FIELD(fuse_attr, ctime);
	FIELD(fuse_attr, atimensec);
	FIELD(fuse_attr, mtimensec);
	FIELD(fuse_attr, ctimensec);
	FIELD(fuse_attr, mode);
	FIELD(fuse_attr, nlink);
	FIELD(fuse_attr, uid);
	FIELD(fuse_attr, gid);
	FIELD(fuse_attr, rdev);
	FIELD(fuse_attr, blksize);
#if FUSE_KERNEL_MINOR_VERSION >= 32
	FIELD(fuse_attr, flags);
#else
	LACKS(fuse_attr.flags);
#endif
	SIZE(fuse_entry_out);
	FIELD(fuse_entry_out, nodeid);
	FIELD(fuse_entry_out, generation);
	FIELD(fuse_entry_out, entry_valid);
	FIELD(fuse_entry_out, attr_valid);
	FIELD(fuse_entry_out, entry_valid_nsec);
	FIELD(fuse_entry_out, attr_valid_nsec);
	ATTR(fuse_entry_out);
	SIZE(fuse_attr_out);
	FIELD(fuse_attr_out, attr_valid);
	FIELD(fuse_attr_out, attr_valid_nsec);
	FIELD(fuse_attr_out, dummy);
	ATTR(fuse_attr_out);
	SIZE(fuse_open_out);
	FIELD(fuse_open_out, fh);
	FIELD(fuse_open_out, open_flags);
#if FUSE_KERNEL_MINOR_VERSION >= 40
	FIELD(fuse_open_out, backing_id);
#else
	LACKS(fuse_open_out.backing_id);
#endif
	SIZE(fuse_write_out);
	FIELD(fuse_write_out, size);
	FIELD(fuse_write_out, padding);
	SIZE(fuse_init_out);
	FIELD(fuse_init_out, major);
	FIELD(fuse_init_out, minor);
	FIELD(fuse_init_out, max_readahead);
	FIELD(fuse_init_out, flags);
	FIELD(fuse_init_out, max_background);
	FIELD(fuse_init_out, congestion_threshold);
	FIELD(fuse_init_out, max_write);
	FIELD(fuse_init_out, time_gran);
	FIELD(fuse_init_out, max_pages);
	FIELD(fuse_init_out, map_alignment);
#if FUSE_KERNEL_MINOR_VERSION >= 36
	FIELD(fuse_init_out, flags2);
#else
	LACKS(fuse_init_out.flags2);
#endif
#if FUSE_KERNEL_MINOR_VERSION >= 40
	FIELD(fuse_init_out, max_stack_depth);
#else
	LACKS(fuse_init_out.max_stack_depth);
#endif
	/* an entry of READDIRPLUS is one of LOOKUP, and then one of READDIR, as PlusEntries of fuse_answer says */
	_Static_assert(FUSE_NAME_OFFSET_DIRENTPLUS == sizeof(struct fuse_entry_out) + FUSE_NAME_OFFSET, "fuse_direntplus");
	_Static_assert(offsetof(struct fuse_direntplus, dirent) == sizeof(struct fuse_entry_out), "fuse_direntplus");
	FIELD(fuse_dirent, ino);
	FIELD(fuse_dirent, off);
	FIELD(fuse_dirent, namelen);
	FIELD(fuse_dirent, type);
}

static void further_answers(void)
{
	FIELD(fuse_kstatfs, blocks);
	FIELD(fuse_kstatfs, bfree);
	FIELD(fuse_kstatfs, bavail);
	FIELD(fuse_kstatfs, files);
	FIELD(fuse_kstatfs, ffree);
	FIELD(fuse_kstatfs, bsize);
	FIELD(fuse_kstatfs, namelen);
	FIELD(fuse_kstatfs, frsize);
	FIELD(fuse_kstatfs, padding);
	SIZE(fuse_kstatfs);
	SIZE(fuse_statfs_out);
	FIELD(fuse_getxattr_out, size);
	FIELD(fuse_getxattr_out, padding);
	SIZE(fuse_getxattr_out);
	FIELD(fuse_lseek_out, offset);
	SIZE(fuse_lseek_out);
}

int main(void)
{
	printf("version %d.%d\n", FUSE_KERNEL_VERSION, FUSE_KERNEL_MINOR_VERSION);
	opcodes();
	error_numbers();
	bits();
	others();
	requests();
	further_requests();
	answers();
	further_answers();
	return 0;
}
