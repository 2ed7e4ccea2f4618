//! Help texts.

pub const HINT: &str = "Try 'qstore --help' or 'qstore COMMAND --help'.";

/// The options of all commands on the backing file.
macro_rules! backing {
    () => {
        "
  --backing FILE  the raw disk under an image whose header names a backing file;
                  it is read and never written, and what the header names is
                  not opened
  --as-raw        FILE is a raw disk although it begins as another format does
"
    };
}

/// The options of the commands that change nothing.
macro_rules! looks {
    () => {
        "  --share         look although another program may be changing the image
  --as-if-mended  look at it as if it were padded to whole clusters and its
                  header_length 112 were 104; the file is not changed
"
    };
}

macro_rules! allowance {
    () => {
        "  --allowance U   stop after U units, as a power cut would; a unit is one count,
                  one table entry or one byte of a cluster stored
"
    };
}

pub const MAIN: &str = "\
qstore: qcow2 images by the proved core

  qstore info    IMAGE                  what the image is, its snapshots, its verdict
  qstore check   IMAGE                  sound, leaks or damaged
  qstore repair  IMAGE                  give leaked clusters back
  qstore map     IMAGE                  where each guest range lies
  qstore read    IMAGE OFFSET LENGTH    guest bytes to standard output
  qstore write   IMAGE OFFSET           standard input to guest bytes
  qstore discard IMAGE OFFSET LENGTH    give whole guest clusters back
  qstore extend  IMAGE BYTES            a longer file, with room for new clusters

  --backing FILE  the raw disk under an image whose header names a backing file
  --json          answer as one JSON value on standard output
  --help          this text, or that of a command
  --version

Numbers: 4096, 0x1000, or 4k, 1M, 1G, 1T (powers of 1024).

Exit: 0 sound or finished, 1 failed, refused or stopped, 2 damaged; only from
check 3 leaks and 4 not finished. A refusal has a number from 1 to 22 and says
what to do.
qemu's locks are taken: an image that a machine has open is not changed.

An image over a backing file is refused (19) unless --backing gives that file.
The name that stands in the image is shown by info and never opened by itself:
whoever made the image chose it, and an image from a stranger could name any file
of this machine. FILE is read into memory as a raw disk and never written; what
the image does not have reads as its bytes, and as zeros past its end.
";

pub const INFO: &str = concat!(
    "\
qstore info IMAGE [--backing FILE] [--json] [--share] [--as-if-mended]

What the header says, the name of a backing file with it, the snapshots, clusters
in use, free and leaked, and the verdict of the check. For an image that is
refused: what its header says, and every obstacle with its remedy, in the order of
doing.

Of a snapshot: its number from 0, id, name, date, and the disk's size then, or
what its L1 table reaches if the image does not say.
",
    backing!(),
    looks!(),
    "
Exit: 0, or 1 if the image is refused.
"
);

pub const CHECK: &str = concat!(
    "\
qstore check IMAGE [--state STATE [--entries K]] [--backing FILE] [--json]
             [--share] [--as-if-mended]

Counts the references of every cluster, from the disk and from every snapshot,
and compares them with the stored counts. The verdict comes first, then all
damage: bad entries, with the number of the snapshot whose they are; clusters
that are used for two things or twice for one; clusters whose count is too low;
wrong marks, which are entries of the disk whose bit 63 does not say whether
there is another reference. The image is not changed.

With --state it is done in portions, one a run. A portion looks at the next K
entries of the L1 tables, the disk's first and then each snapshot's, and the file
STATE keeps how far the check is and what it has counted. The last one gives the
verdict: that of the whole check if the image was not changed meanwhile. If it
was, each portion judges the bytes that it finds, and a note says so. Without
--entries the run goes on to the end; --entries 0 says how far the check is.

STATE is made if there is none, and is then replaced as a whole; what qstore has
not written is left alone. It belongs to one image file of one length. When the
check has ended STATE stays: the verdict is given again while the image has the
same bytes, and if it has others, that is a failure. Remove STATE to begin anew.
",
    backing!(),
    "  --state STATE   do the check in portions; this file keeps it between them
  --entries K     the most entries of L1 tables that this portion looks at
",
    looks!(),
    "
Exit: 0 sound, 1 failed or refused, 2 damaged, 3 leaks, 4 not finished.
"
);

pub const REPAIR: &str = concat!(
    "\
qstore repair IMAGE [--backing FILE] [--json] [--allowance U] [--force]

Sets the count of each leaked cluster to its references, so that it is free
again. Guest bytes do not change, nor do those of snapshots. A damaged image is
refused (17) and left as it is. So is a leaking one with autoclear_features: what
looks leaked may be theirs, such as the clusters of qemu's persistent bitmaps.
",
    backing!(),
    allowance!(),
    "  --force         repair it although autoclear_features is not 0; they are
                  cleared first, and persistent bitmaps are lost

Exit: 0 sound afterwards, 1 failed, refused or stopped, 2 damaged.
"
);

pub const MAP: &str = concat!(
    "\
qstore map IMAGE [--backing FILE] [--json] [--share] [--as-if-mended]

The guest disk as runs, fields parted by tabs: guest offset, length, kind and
host offset. Kinds: host (data at the host offset), zeros, absent (not
allocated: reads as the backing file at the same offset, or as zeros if there is
none), refused (no way through the tables; the last field is then the number).
",
    backing!(),
    looks!(),
    "
Exit: 0, or 1 if the image or a run is refused.
"
);

pub const READ: &str = concat!(
    "\
qstore read IMAGE OFFSET LENGTH [--snapshot S] [--backing FILE] [--json]
            [--share] [--as-if-mended]

Writes the guest bytes to standard output. Nothing is written unless the whole
range can be read. With --json the bytes are given in hex.

S names a snapshot as info lists it: by its id, or by its name if no snapshot has
that id, as qemu takes it; or else by its number from 0 after a #, as in '#0'. So
a name that is also a number is reached if it is no snapshot's id, and by the
number otherwise. A name that several have is refused. A range may go up to what
the snapshot's L1 table reaches, which may be more than the disk had then.
",
    backing!(),
    "  --snapshot S    the bytes that a snapshot has kept, in place of the disk's
",
    looks!(),
    "
Exit: 0, or 1 if failed or refused.
"
);

pub const WRITE: &str = concat!(
    "\
qstore write IMAGE OFFSET [--backing FILE] [--json] [--allowance U]

Writes standard input to the guest bytes from OFFSET on, guest cluster by guest
cluster. The whole request is judged first: if any part is refused,
the file is not changed. Many guest clusters are stored at once: what nothing
leads to yet is flushed before the entries that lead to it. So a power cut leaves
an image that is sound or leaks, and each guest cluster old or new by itself; data
that had a place may be old and new byte by byte.

What a snapshot holds is never changed: a write to it is refused (22). Around the
bytes that are written a new cluster has those of the backing file.

autoclear_features are cleared first: qemu then no longer uses persistent
bitmaps, which would lack the change.
",
    backing!(),
    allowance!(),
    "
Exit: 0 finished, 1 failed, refused or stopped, 2 the image is damaged.
"
);

pub const DISCARD: &str = concat!(
    "\
qstore discard IMAGE OFFSET LENGTH [--backing FILE] [--json] [--allowance U]

Gives whole guest clusters back; they read as zeros afterwards. OFFSET has to be
a multiple of the cluster size, and so has LENGTH unless the range ends with
the disk. L2 tables are kept. What a snapshot holds is refused (22). Over a backing
file they are marked as zeros; where there can be no mark, in version 2 or without
an L2 table, a discard is refused (20).

autoclear_features are cleared first: qemu then no longer uses persistent
bitmaps, which would lack the change.
",
    backing!(),
    allowance!(),
    "
Exit: 0 finished, 1 failed, refused or stopped, 2 the image is damaged.
"
);

pub const EXTEND: &str = concat!(
    "\
qstore extend IMAGE BYTES [--backing FILE] [--json] [--allowance U]

Makes the file BYTES long by zeros and takes the new clusters in, so that writes
find room: refcount blocks are made for them, and the refcount table names these.
The disk keeps its size and every byte, and so do snapshots. BYTES is the length of
the whole file, a multiple of the cluster size, and not less than the file has; a
file that ends inside a cluster is filled up with it.

All is tried in memory first: if it is refused, the file is not changed. A refcount
table that is too short for BYTES is 9, and the sentence says how far it reaches.
The file's length is flushed first, and then each block before the entry that names
it. After a power cut the image may be refused (10); the same command finishes the
work.

autoclear_features are cleared first where a block is to be made: qemu then no
longer uses persistent bitmaps.
",
    backing!(),
    allowance!(),
    "
Exit: 0 finished, 1 failed, refused or stopped, 2 the image is damaged.
"
);
