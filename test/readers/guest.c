/*
 * Mounts images by the kernel's udf driver, and writes down all that it reports about their trees.
 *
 *   guest JOBS OUTPUT      on this kernel, as root
 *   guest                  as the first process of a virtual machine: loads /modules/NN, reads /jobs, writes to /dev/vdb
 *
 * A line of JOBS is `loop FILE OFFSET BYTES OPTIONS` or `disc TARGET 0 0 OPTIONS`: a read-only loop device of sectors of
 * 2,048 bytes over these bytes of a file, or the disc in a drive; OPTIONS is `-` for none. `bag` is as `loop`, and what
 * sha256sum says of the bag at /bag comes after the tree. All bytes are printed as they are: what they ought to be is not
 * known here.
 */
#define _GNU_SOURCE
#include <dirent.h>
#include <errno.h>
#include <fcntl.h>
#include <linux/loop.h>
#include <sched.h>
#include <stdint.h>
#include <stdio.h>
#include <stdlib.h>
#include <string.h>
#include <sys/ioctl.h>
#include <sys/mount.h>
#include <sys/reboot.h>
#include <sys/stat.h>
#include <sys/syscall.h>
#include <sys/wait.h>
#include <unistd.h>

#ifndef LOOP_CONFIGURE
#define LOOP_CONFIGURE 0x4C0A
struct loop_config {
	uint32_t fd;
	uint32_t block_size;
	struct loop_info64 info;
	uint64_t reserved[8];
};
#endif

static FILE *out;
static char path[1 << 17];
static char piece[1 << 16];

static void fail(const char *what)
{
	fprintf(stderr, "guest: %s: %s\n", what, strerror(errno));
	if (getpid() == 1) {
		sync();
		reboot(RB_POWER_OFF);
	}
	exit(1);
}

/* Numbers go out with the low byte first, whatever the machine has. */
static void number(uint64_t value, int bytes)
{
	while (bytes-- > 0) {
		putc((int)(value & 255), out);
		value >>= 8;
	}
}

/* A record of a node: its kind, path and status, then the bytes of a file in pieces, then a piece of no bytes. */
static void tell(char kind, size_t length, const struct stat *status, int failure)
{
	putc(kind, out);
	number((uint64_t)failure, 4);
	number(length, 4);
	fwrite(path, 1, length, out);
	number((uint64_t)status->st_size, 8);
	number((uint64_t)status->st_mtim.tv_sec, 8);
	number((uint64_t)status->st_mtim.tv_nsec, 8);
	number(status->st_mode, 4);
	number(status->st_nlink, 4);
}

static void tell_bytes(int file)
{
	ssize_t got;
	while ((got = read(file, piece, sizeof piece)) > 0) {
		number((uint64_t)got, 4);
		fwrite(piece, 1, (size_t)got, out);
	}
	number(0, 4);
	number(got < 0 ? (uint64_t)errno : 0, 4);
}

static void walk(int folder, size_t length)
{
	struct stat status;
	struct dirent *entry;
	DIR *list = fdopendir(folder);
	if (!list || fstat(folder, &status))
		fail("fdopendir");
	tell('D', length, &status, 0);
	errno = 0;
	while ((entry = readdir(list))) {
		size_t size = strlen(entry->d_name);
		if (!strcmp(entry->d_name, ".") || !strcmp(entry->d_name, ".."))
			continue;
		path[length] = '/';
		memcpy(path + length + 1, entry->d_name, size);
		memset(&status, 0, sizeof status);
		if (fstatat(folder, entry->d_name, &status, AT_SYMLINK_NOFOLLOW)) {
			tell('?', length + 1 + size, &status, errno);
			errno = 0;
			continue;
		}
		int node = openat(folder, entry->d_name, O_RDONLY | O_NOFOLLOW);
		if (node < 0) {
			tell('?', length + 1 + size, &status, errno);
		} else if (S_ISDIR(status.st_mode)) {
			walk(node, length + 1 + size);
		} else {
			tell('F', length + 1 + size, &status, 0);
			tell_bytes(node);
			close(node);
		}
		errno = 0;
	}
	if (errno) {
		memset(&status, 0, sizeof status);
		tell('?', length, &status, errno);
	}
	closedir(list);
}

/* What sha256sum says of the manifests of the bag, in pieces as the bytes of a file, and then its status. */
static void tell_sums(const char *room)
{
	int ends[2], status;
	pid_t child;
	if (fflush(out) || pipe(ends) || (child = fork()) < 0)
		fail("fork");
	if (!child) {
		setenv("LC_ALL", "C", 1);
		if (chdir(room) || chdir("bag") || dup2(ends[1], 1) < 0 || dup2(1, 2) < 0)
			_exit(126);
		execlp("sha256sum", "sha256sum", "-c", "manifest-sha256.txt", "tagmanifest-sha256.txt", (char *)NULL);
		_exit(127);
	}
	close(ends[1]);
	putc('S', out);
	tell_bytes(ends[0]);
	close(ends[0]);
	if (waitpid(child, &status, 0) != child)
		fail("waitpid");
	number(WIFEXITED(status) ? (uint64_t)WEXITSTATUS(status) : 128, 4);
}

/* Makes a loop device over a part of a file, and gives its name in `name`; the descriptor keeps it. */
static int attach(const char *file, uint64_t offset, uint64_t bytes, char *name)
{
	struct loop_config config;
	int control = open("/dev/loop-control", O_RDWR | O_CLOEXEC);
	int data = open(file, O_RDONLY | O_CLOEXEC);
	int tries;
	if (control < 0)
		fail("/dev/loop-control");
	if (data < 0)
		fail(file);
	/* Another process may take the device that is free. */
	for (tries = 0; tries < 100; tries++) {
		int free_one = ioctl(control, LOOP_CTL_GET_FREE);
		int device;
		if (free_one < 0)
			fail("LOOP_CTL_GET_FREE");
		sprintf(name, "/dev/loop%d", free_one);
		device = open(name, O_RDONLY | O_CLOEXEC);
		if (device < 0)
			fail(name);
		memset(&config, 0, sizeof config);
		config.fd = (uint32_t)data;
		config.block_size = 2048;
		config.info.lo_offset = offset;
		config.info.lo_sizelimit = bytes;
		config.info.lo_flags = LO_FLAGS_READ_ONLY | LO_FLAGS_AUTOCLEAR;
		if (!ioctl(device, LOOP_CONFIGURE, &config)) {
			close(data);
			close(control);
			return device;
		}
		close(device);
		if (errno != EBUSY)
			fail("LOOP_CONFIGURE");
	}
	fail("no loop device");
	return -1;
}

/* The drive of a target, which the kernel may have found in any order. */
static int find(const char *target, char *name)
{
	char link[256], to[256], wanted[32];
	int tries, drive;
	sprintf(wanted, ":0:%.8s:0", target);
	/* A machine that is emulated beside other work takes its time: five minutes are more than any takes. */
	for (tries = 0; tries < 3000; tries++) {
		for (drive = 0; drive < 16; drive++) {
			ssize_t size;
			sprintf(link, "/sys/block/sr%d/device", drive);
			size = readlink(link, to, sizeof to - 1);
			if (size < 0)
				continue;
			to[size] = 0;
			if ((size_t)size > strlen(wanted) && !strcmp(to + size - strlen(wanted), wanted)) {
				/* The kernel reports a drive a moment before its node is there. */
				int device;
				sprintf(name, "/dev/sr%d", drive);
				device = open(name, O_RDONLY | O_CLOEXEC | O_NONBLOCK);
				if (device >= 0)
					return device;
			}
		}
		usleep(100000);
	}
	fail("no such drive");
	return -1;
}

static void run(const char *jobs, const char *room)
{
	char kind[16], what[4096], options[256], name[64];
	unsigned long long offset, bytes;
	uint32_t job = 0;
	FILE *list = fopen(jobs, "r");
	if (!list)
		fail(jobs);
	while (fscanf(list, "%15s %4095s %llu %llu %255s", kind, what, &offset, &bytes, options) == 5) {
		int device = strcmp(kind, "disc") ? attach(what, offset, bytes, name) : find(what, name);
		int refused = mount(name, room, "udf", MS_RDONLY | MS_NODEV | MS_NOSUID | MS_NOEXEC,
				    strcmp(options, "-") ? options : "");
		putc('M', out);
		number(job++, 4);
		number(refused ? (uint64_t)errno : 0, 4);
		if (!refused) {
			int root = open(room, O_RDONLY | O_DIRECTORY);
			if (root < 0)
				fail("the root");
			walk(root, 0);
			if (!strcmp(kind, "bag"))
				tell_sums(room);
			if (umount2(room, 0))
				fail("umount");
		}
		close(device);
	}
	putc('E', out);
	fclose(list);
	if (fflush(out) || fsync(fileno(out)))
		fail("output");
}

int main(int count, char **words)
{
	if (getpid() != 1) {
		char room[] = "/tmp/udf.XXXXXX";
		if (count != 3) {
			fputs("usage: guest JOBS OUTPUT\n", stderr);
			return 2;
		}
		/* The mounts are this process's alone, and gone with it. */
		if (unshare(CLONE_NEWNS) || mount("none", "/", NULL, MS_REC | MS_PRIVATE, NULL))
			fail("unshare");
		if (!(out = fopen(words[2], "w")) || !mkdtemp(room))
			fail(words[2]);
		run(words[1], room);
		rmdir(room);
		return 0;
	}
	mkdir("/dev", 0755);
	mkdir("/sys", 0755);
	mkdir("/mnt", 0755);
	mount("dev", "/dev", "devtmpfs", 0, NULL);
	mount("sys", "/sys", "sysfs", 0, NULL);
	for (int module = 0;; module++) {
		char name[32];
		int file;
		sprintf(name, "/modules/%02d", module);
		file = open(name, O_RDONLY | O_CLOEXEC);
		if (file < 0)
			break;
		if (syscall(SYS_finit_module, file, "", 0) && errno != EEXIST)
			fail(name);
		close(file);
	}
	for (int tries = 0; tries < 3000 && !(out = fopen("/dev/vdb", "r+")); tries++)
		usleep(100000);
	if (!out)
		fail("/dev/vdb");
	static char buffer[1 << 20];
	setvbuf(out, buffer, _IOFBF, sizeof buffer);
	run("/jobs", "/mnt");
	reboot(RB_POWER_OFF);
	return 0;
}
