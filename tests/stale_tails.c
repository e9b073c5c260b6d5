/* stale_tails IMAGE: leaves old attributes behind the used part of two records of an NTFS image, through libntfs-3g.
 *
 *     /removed  had a long stream and four short ones, and lost the long one. The library moves the others down and
 *               leaves what is behind their end as it was: three of the short ones stand there a second time.
 *     /reused   is a new file in the record of /before, a file with eight streams that was deleted.
 *
 * One thing is steered. Before a new file gets a record the library clears it, which no rule asks of a writer. For
 * /reused all that lies behind the four bytes of the new end marker is put back. Nothing is mounted. */
#define _GNU_SOURCE
#include <dlfcn.h>
#include <stdio.h>
#include <stdlib.h>
#include <string.h>
#include <sys/stat.h>
#include <ntfs-3g/types.h>
#include <ntfs-3g/volume.h>
#include <ntfs-3g/inode.h>
#include <ntfs-3g/attrib.h>
#include <ntfs-3g/dir.h>
#include <ntfs-3g/unistr.h>
#include <ntfs-3g/mft.h>

typedef int layout_call(const ntfs_volume *, const MFT_REF, MFT_RECORD *);

static ntfs_volume *volume;
static int leaving;

static void need(int good, const char *what) {
	if (!good) {
		fprintf(stderr, "stale_tails: ");
		perror(what);
		exit(1);
	}
}

/* Stands in the place of the library's own, which it calls. */
int ntfs_mft_record_layout(const ntfs_volume *on, const MFT_REF number, MFT_RECORD *record) {
	layout_call *theirs = (layout_call *)dlsym(RTLD_NEXT, "ntfs_mft_record_layout");
	size_t size = on->mft_record_size;
	char *before = malloc(size);
	need(theirs && before, "find the library's own layout");
	memcpy(before, record, size);
	int status = theirs(on, number, record);
	size_t end = le16_to_cpu(record->attrs_offset) + sizeof(ATTR_TYPES);
	if (!status && leaving)
		memcpy((char *)record + end, before + end, size - end);
	free(before);
	return status;
}

/* A name in units of 16 bits, all of them ASCII. */
static int units_of(const char *name, ntfschar *units) {
	int count = strlen(name);
	for (int k = 0; k < count; k++)
		units[k] = cpu_to_le16(name[k]);
	return count;
}

static ntfs_inode *folder(void) {
	ntfs_inode *root = ntfs_pathname_to_inode(volume, NULL, "/");
	need(root != NULL, "open the folder");
	return root;
}

static ntfs_inode *new_file(const char *name) {
	ntfschar units[64];
	ntfs_inode *root = folder();
	ntfs_inode *file = ntfs_create(root, const_cpu_to_le32(0), units, units_of(name, units), S_IFREG);
	need(file != NULL, "make a file");
	need(!ntfs_inode_close(root), "close the folder");
	return file;
}

static void add_stream(ntfs_inode *file, const char *name, const char *text) {
	ntfschar units[64];
	int count = units_of(name, units);
	need(!ntfs_attr_add(file, AT_DATA, units, count, (const u8 *)text, strlen(text)), "add a stream");
}

static void add_parts(ntfs_inode *file, int count) {
	for (int k = 0; k < count; k++) {
		char name[16], text[64];
		snprintf(name, sizeof name, "part_%d", k);
		snprintf(text, sizeof text, "part %d, %d.00 mm, of the old file", k, k + 1);
		add_stream(file, name, text);
	}
}

static void remove_stream(ntfs_inode *file, const char *name) {
	ntfschar units[64];
	int count = units_of(name, units);
	ntfs_attr *stream = ntfs_attr_open(file, AT_DATA, units, count);
	need(stream && !ntfs_attr_rm(stream), "remove a stream");
}

static void delete_file(const char *name) {
	char path[64];
	ntfschar units[64];
	snprintf(path, sizeof path, "/%s", name);
	ntfs_inode *file = ntfs_pathname_to_inode(volume, NULL, path);
	need(file != NULL, "find a file");
	need(!ntfs_delete(volume, path, file, folder(), units, units_of(name, units)), "delete a file");
}

int main(int count, char **words) {
	need(count == 2, "usage");
	need((volume = ntfs_mount(words[1], 0)) != NULL, "open the image");
	ntfs_inode *before = new_file("before");
	add_parts(before, 8);
	need(!ntfs_inode_close(before), "close a file");
	ntfs_inode *removed = new_file("removed");
	char text[201];
	memset(text, '.', 200);
	text[200] = 0;
	add_stream(removed, "a_long", text);
	add_parts(removed, 4);
	remove_stream(removed, "a_long");
	need(!ntfs_inode_close(removed), "close a file");
	delete_file("before");
	need(!ntfs_umount(volume, FALSE), "close the image");

	/* an image that is opened anew gives free records out from the first one on */
	need((volume = ntfs_mount(words[1], 0)) != NULL, "open the image");
	leaving = 1;
	need(!ntfs_inode_close(new_file("reused")), "close a file");
	need(!ntfs_umount(volume, FALSE), "close the image");
	return 0;
}
