/* springs IMAGE SIZE <TEXT: writes the text as /springs.csv into an NTFS image, in pieces of SIZE bytes, through
 * libntfs-3g.
 *
 * Two things are steered, so that the stream comes to lie in parts: only every second cluster of the data zone is free
 * while the file is written, so that each cluster is a run of its own, and the stream begins in a record of its own, so
 * that its parts have one instance. What the records then look like is the library's doing. Nothing is mounted. */
#include <stdio.h>
#include <stdlib.h>
#include <string.h>
#include <sys/stat.h>
#include <ntfs-3g/types.h>
#include <ntfs-3g/volume.h>
#include <ntfs-3g/inode.h>
#include <ntfs-3g/attrib.h>
#include <ntfs-3g/dir.h>
#include <ntfs-3g/unistr.h>
#include <ntfs-3g/mft.h>

static ntfs_volume *volume;

static void need(int good, const char *what) {
	if (!good) {
		fprintf(stderr, "springs: ");
		perror(what);
		exit(1);
	}
}

/* Sets the bits of every second cluster that is free, or clears those that it set. */
static void comb(unsigned char *held, int set) {
	s64 size = volume->nr_clusters / 8, changed = 0;
	unsigned char *map = calloc(1, size);
	need(map && ntfs_attr_pread(volume->lcnbmp_na, 0, size, map) == size, "read the bitmap");
	for (s64 c = 0; c < size * 8; c++) {
		unsigned char bit = 1 << (c & 7);
		if (set && c % 2 && !(map[c >> 3] & bit) && !(c >= volume->mft_zone_start && c < volume->mft_zone_end)) {
			map[c >> 3] |= bit;
			held[c >> 3] |= bit;
			changed++;
		} else if (!set && held[c >> 3] & bit) {
			map[c >> 3] &= ~bit;
			changed++;
		}
	}
	need(ntfs_attr_pwrite(volume->lcnbmp_na, 0, size, map) == size, "write the bitmap");
	volume->free_clusters += set ? -changed : changed;
	volume->full_zones = 0;
	free(map);
}

int main(int count, char **words) {
	need(count == 3, "usage");
	long size = atol(words[2]), at = 0, got;
	char *piece = malloc(size);
	need((volume = ntfs_mount(words[1], 0)) != NULL, "open the image");
	unsigned char *held = calloc(1, volume->nr_clusters / 8);
	comb(held, 1);

	ntfs_inode *folder = ntfs_pathname_to_inode(volume, NULL, "/");
	ntfschar *name = NULL;
	int units = ntfs_mbstoucs("springs.csv", &name);
	need(folder && units > 0, "open the folder");
	ntfs_inode *file = ntfs_create(folder, const_cpu_to_le32(0), name, units, S_IFREG);
	need(file != NULL, "make the file");
	need(!ntfs_inode_close(folder), "close the folder");

	/* a list, and a record of its own for the stream */
	need(!ntfs_inode_add_attrlist(file), "add a list");
	ntfs_inode *own = ntfs_mft_record_alloc(volume, file);
	ntfs_attr_search_ctx *found = ntfs_attr_get_search_ctx(file, NULL);
	need(own && found && !ntfs_attr_lookup(AT_DATA, NULL, 0, CASE_SENSITIVE, 0, NULL, 0, found), "find the stream");
	need(!ntfs_attr_record_move_to(found, own), "move the stream");
	ntfs_attr_put_search_ctx(found);

	ntfs_attr *stream = ntfs_attr_open(file, AT_DATA, AT_UNNAMED, 0);
	need(stream != NULL, "open the stream");
	while ((got = fread(piece, 1, size, stdin)) > 0) {
		/* room in the base record, for the list to grow into */
		need(!ntfs_inode_free_space(file, 90), "free space");
		need(ntfs_attr_pwrite(stream, at, got, piece) == got, "write the stream");
		at += got;
	}
	ntfs_attr_close(stream);
	need(!ntfs_inode_close(file), "close the file");
	comb(held, 0);
	need(!ntfs_umount(volume, FALSE), "close the image");
	return 0;
}
