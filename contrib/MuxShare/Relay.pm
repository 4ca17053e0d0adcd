# One connection of a guest, in a process of its own: it puts the guest's own name and token into the first frame, and
# then copies bytes both ways between the guest and muxd.
package MuxShare::Relay;
use strict;
use warnings;
use Exporter qw(import);
use POSIX ();
use MuxShare::Wire;

our @EXPORT = qw(relay);

# How many terminals a guest may have, how long a first frame may take, and how long its payload is at most.
use constant { TERMINALS => 4, FIRST_FRAME => 10, LONGEST => 8192 };
# After how many seconds without a key others are told of a narrow terminal: what they are told of a guest who joins
# comes first.
use constant QUIET => 2;
# An ATTACH has lines and columns in two bytes each, 64 digits of a token, and a name.
use constant SIZE => 4;
use constant SHORTEST_ATTACH => SIZE + 64 + 1;

sub leave { POSIX::_exit(0) }

sub refuse {
    my ($client, $why) = @_;
    write_all($client, frame(SAY, $why) . frame(GONE, REFUSED));
    leave();
}

# Returns the first frame's kind and payload.  Ends if the frame is too slow or too long.
sub first_frame {
    my ($client) = @_;
    local $SIG{ALRM} = 'DEFAULT';
    alarm FIRST_FRAME;
    my $head = read_exactly($client, 3) // leave();
    my ($kind, $length) = unpack 'Cn', $head;
    leave() if $length > LONGEST;
    my $payload = read_exactly($client, $length) // leave();
    alarm 0;
    return ($kind, $payload);
}

# Copies muxd's bytes to the guest until either side ends, in a process of its own.
sub copy_back {
    my ($server, $client) = @_;
    my $process = fork;
    leave() unless defined $process;
    return $process if $process;
    while (sysread($server, my $bytes, 65536)) { write_all($client, $bytes) or last }
    shutdown($_, 2) for $client, $server;
    leave();
}

# Copies the guest's bytes to muxd until either side ends, or until the keeper is gone (its pipe LIFE ends).  Calls NOTE
# at the first pause.
sub copy_forth {
    my ($client, $server, $life, $note) = @_;
    while (1) {
        my $ready = '';
        vec($ready, fileno $_, 1) = 1 for $client, $life;
        my $count = select($ready, undef, undef, $note ? QUIET : undef);
        if ($note && $count == 0) {
            $note->();
            undef $note;
        }
        next unless $count > 0;
        last if vec($ready, fileno $life, 1);
        sysread($client, my $bytes, 65536) or last;
        write_all($server, $bytes) or last;
    }
}

# Returns the line of a COMMAND: before it are a window, a token, and a name with its length.
sub line_of { my ($payload) = @_; return (unpack 'C a64 C/a a*', $payload)[3] // '' }

# Serves one connection of a guest, CLIENT, and ends this process.  SOCKET is muxd's, TOKEN the guest's, WAIT the
# seconds until the guest may join again or 0, and ATTACHED_NOW their number of connections.  ANSWERS are lists of texts
# for mux-join, by the words with which it asks; at the word ask it also calls ASK.  Once the guest has joined, it calls
# NOTE with the terminal's columns.
sub relay {
    my (%of) = @_;
    my ($kind, $payload) = first_frame($of{client});
    # mux-join asks whether it would be let in, and the like.  It isn't in the session then.
    my $word = $kind == COMMAND ? line_of($payload) : '';
    if (my $texts = $of{answers}{$word}) {
        refuse($of{client}, "you asked too often: try again in $of{wait} s") if $word eq 'ask' && $of{wait};
        $of{ask}->() if $word eq 'ask';
        write_all($of{client}, join '', frame(WELCOME, "\0"), (map { frame(SAY, $_) } @$texts), frame(GONE, DONE));
        leave();
    }
    refuse($of{client}, 'guests can attach, and nothing else')
        if $kind != ATTACH || length $payload < SHORTEST_ATTACH;
    refuse($of{client}, 'you have ' . TERMINALS . ' terminals here already: leave one first')
        if $of{attached_now} >= TERMINALS;
    refuse($of{client}, "you joined too often: try again in $of{wait} s") if $of{wait};
    my $server = connected($of{socket}) // leave();
    write_all($server, frame(ATTACH, substr($payload, 0, SIZE) . $of{token} . $of{name})) or leave();
    my $back = copy_back($server, $of{client});
    local $SIG{TERM} = sub { shutdown($_, 2) for $server, $of{client}; leave() };
    my $columns = (unpack 'nn', $payload)[1];
    copy_forth($of{client}, $server, $of{life}, sub { $of{note}->($columns) });
    shutdown($server, 2);
    waitpid($back, 0);
    leave();
}

1;
