# The folder of a shared session: /tmp/mux-UID, or /tmp/mux-UID-NAME of a session with a name, which others can pass but
# not list, with the socket that they reach (door) and a private folder (own).  If something of another account has that
# name, it ends with a dot and six letters.
package MuxShare::Place;
use strict;
use warnings;
use Exporter qw(import);
use Fcntl qw(:flock :mode O_RDONLY O_DIRECTORY O_NOFOLLOW);
use MuxShare::Wire;

our @EXPORT = qw(check_around is_place lock_place own_places take_place);

my $me = $>;
# Not TMPDIR: the other account has to find the place, too.
my $around = $ENV{MUX_PLACES} // '/tmp';

use constant { MODE => 0711, TRIES => 50 };

# Ends with a fault, unless in the folder around only an entry's owner may rename or remove it.  Follows links.
sub check_around {
    my @at = stat $around or fault("can't look at $around: $!");
    my ($mode, $owner) = @at[2, 4];
    fault("$around belongs to another account, so a session can't be kept there") unless $owner == 0 || $owner == $me;
    fault("others may rename what is in $around: root has to run chmod +t $around") if $mode & 022 && !($mode & 01000);
}

# Returns whether this is a folder, and no link, of this account, on the file system of the folder around it, in which
# nobody else may make or replace anything.
sub is_place {
    my ($path) = @_;
    my @at = lstat $path or return 0;
    my @outer = stat $around or return 0;
    return S_ISDIR($at[2]) && $at[4] == $me && ($at[2] & 07777) == MODE && $at[0] == $outer[0];
}

# Returns the opened folder with its lock, or undef if another process has it.
sub lock_place {
    my ($path) = @_;
    sysopen(my $folder, $path, O_RDONLY | O_DIRECTORY | O_NOFOLLOW) or return;
    flock($folder, LOCK_EX | LOCK_NB) or return;
    my @by_path = lstat $path;
    my @opened = stat $folder;
    return unless @by_path && $by_path[0] == $opened[0] && $by_path[1] == $opened[1];
    return $folder;
}

# Returns the path of the session NAME, or of the session without a name ('').
sub plain { my ($name) = @_; return "$around/mux-$me" . ($name eq '' ? '' : "-$name") }

# Returns this account's places of the session NAME, the one with the plain path first.
sub own_places {
    my ($name) = @_;
    opendir(my $all, $around) or fault("can't list $around: $!");
    my $plain = plain($name);
    my @paths = sort grep { /^\Q$plain\E(?:\.[a-z]{6})?$/ } map { "$around/$_" } readdir $all;
    return grep { is_place($_) } @paths;
}

# Returns six letters that nobody can predict.
sub letters {
    open(my $random, '<', '/dev/urandom') or fault("can't open /dev/urandom: $!");
    my $bytes = read_exactly($random, 6) // fault('/dev/urandom gives no bytes');
    return join '', map { ('a' .. 'z')[$_ % 26] } unpack 'C6', $bytes;
}

# Makes a place, unless one was made meanwhile.  mkdir follows no link and takes no folder that is there.  The mode is
# set at once, since another mux-share that looks just now must take the folder for a place.
sub make_place {
    my ($name) = @_;
    my $mask = umask 0;
    my $path = plain($name);
    mkdir("$path." . letters(), MODE) if !mkdir($path, MODE) && !is_place($path);
    umask $mask;
}

# Returns a place and its lock; the lock is undef if a session has the place.
sub take_place {
    my ($name) = @_;
    for (1 .. TRIES) {
        for my $path (own_places($name)) {
            my $lock = lock_place($path);
            return ($path, $lock) if $lock;
            return ($path, undef) if is_place($path);
        }
        make_place($name);
    }
    fault("can't make a folder in $around: $!");
}

1;
