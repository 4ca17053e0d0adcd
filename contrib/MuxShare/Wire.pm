# Sockets, frames, processes and time, for the parts of mux-door.
package MuxShare::Wire;
use strict;
use warnings;
use Errno qw(EINTR);
use Exporter qw(import);
use POSIX ();
use Socket qw(PF_UNIX SOCK_STREAM SOL_SOCKET SO_PEERCRED SO_RCVTIMEO SO_SNDTIMEO pack_sockaddr_un);

our @EXPORT = qw(NOBODY SAY GONE WELCOME ATTACH COMMAND DONE REFUSED fault log_line content connected peer_uid
    peer_process limit_time write_all read_exactly frame ask quoted spawn pause now);
our @EXPORT_OK = qw(KEYS DETACH ANSWER);

# The uid that the kernel shows for every account of a foreign user namespace, so it names no account.
use constant NOBODY => 65534;
# Frames of muxd's protocol, and reasons of GONE.
use constant { ATTACH => 0x41, COMMAND => 0x43, KEYS => 0x4b, DETACH => 0x44 };
use constant { SAY => 0x73, WELCOME => 0x79, GONE => 0x67 };
use constant { DONE => "\0", REFUSED => "\6" };
# The number of a window in a command that names none, and how many seconds an answer may take.
use constant { NO_WINDOW => 255, ANSWER => 10 };
# The log has at most this many bytes: guests and strangers can cause lines.
use constant LONGEST_LOG => 1 << 20;

# Ends this program with a message and a status (default: 1).
sub fault {
    my ($text, $status) = @_;
    print STDERR "mux-share: $text\n";
    exit($status // 1);
}

# Writes a line with the time to standard error, which is the session's log once the keeper runs.
sub log_line {
    my ($text) = @_;
    return if (-s STDERR // 0) > LONGEST_LOG;
    print STDERR POSIX::strftime('%Y-%m-%dT%H:%M:%SZ', gmtime), " $text\n";
}

# Returns the content of a file, or '' if it can't be read.
sub content {
    my ($path) = @_;
    open(my $file, '<', $path) or return '';
    local $/;
    return <$file> // '';
}

# Returns a connection to a Unix socket, or undef.
sub connected {
    my ($path) = @_;
    socket(my $socket, PF_UNIX, SOCK_STREAM, 0) or return;
    connect($socket, pack_sockaddr_un($path)) or return;
    return $socket;
}

# Returns the process and the uid of the other end as the kernel knows them: of what connected, or began to listen.
sub peer {
    my ($socket) = @_;
    my $answer = getsockopt($socket, SOL_SOCKET, SO_PEERCRED) or return (0, NOBODY);
    return unpack 'iI', $answer;
}

sub peer_process { return (peer($_[0]))[0] }
sub peer_uid { return (peer($_[0]))[1] }

# Reads and writes of a socket fail after so many seconds.
sub limit_time {
    my ($socket, $seconds) = @_;
    setsockopt($socket, SOL_SOCKET, $_, pack('l!l!', $seconds, 0)) for SO_RCVTIMEO, SO_SNDTIMEO;
}

# Returns whether all bytes were written.
sub write_all {
    my ($to, $bytes) = @_;
    my $done = 0;
    while ($done < length $bytes) {
        my $count = syswrite($to, $bytes, length($bytes) - $done, $done);
        next if !defined $count && $! == EINTR;
        return 0 unless $count;
        $done += $count;
    }
    return 1;
}

# Returns exactly LENGTH bytes, or undef if fewer come before the end.
sub read_exactly {
    my ($from, $length) = @_;
    my $bytes = '';
    while (length $bytes < $length) {
        my $count = sysread($from, $bytes, $length - length $bytes, length $bytes);
        next if !defined $count && $! == EINTR;
        return unless $count;
    }
    return $bytes;
}

# Returns a frame of muxd's protocol: its kind, the length of its payload in two bytes, the payload.
sub frame {
    my ($kind, $payload) = @_;
    return chr($kind) . pack('n', length $payload) . $payload;
}

# Returns a text as one word of a command.
sub quoted { my ($text) = @_; return "'" . ($text =~ s/'/'\\''/gr) . "'" }

# Gives a command to the muxd at PATH, on a window if there is a number.  Returns what GONE had, or undef if it didn't
# come, and what was said.  No process has the command as its words, so ps shows no names.
sub ask {
    my ($path, $user, $token, $line, $window) = @_;
    my $server = connected($path) or return (undef, "muxd can't be reached: $!");
    limit_time($server, ANSWER);
    write_all($server, frame(COMMAND, pack 'C a64 C/a* a*', $window // NO_WINDOW, $token, $user, $line));
    my $said = '';
    while (defined(my $head = read_exactly($server, 3))) {
        my ($kind, $length) = unpack 'Cn', $head;
        my $payload = read_exactly($server, $length) // last;
        $said .= $payload if $kind == SAY;
        return ($payload, $said) if $kind == GONE;
    }
    return (undef, 'muxd gave no answer');
}

# Starts a program, after calling BEFORE in the new process, and returns the process.
sub spawn {
    my ($before, @words) = @_;
    my $process = fork;
    die "can't start a process: $!\n" unless defined $process;
    return $process if $process;
    $SIG{$_} = 'DEFAULT' for qw(CHLD TERM HUP INT PIPE);
    $before->() if $before;
    exec { $words[0] } @words or POSIX::_exit(127);
}

# Waits for a part of a second.
sub pause {
    my ($seconds) = @_;
    select(undef, undef, undef, $seconds);
}

# Returns the seconds since the machine started, with those in which it was suspended.  Nobody can set this clock.
sub now {
    my ($seconds) = content('/proc/uptime') =~ /^([0-9.]+)/;
    return $seconds // die "can't read /proc/uptime\n";
}

1;
