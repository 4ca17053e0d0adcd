# The keeper of a shared session: the process that owns the place, lets guests in through its socket (door), and ends
# the session.
package MuxShare::Keeper;
use strict;
use warnings;
use Fcntl qw(O_RDONLY O_NONBLOCK);
use POSIX qw(WNOHANG);
use Socket qw(PF_UNIX SOCK_STREAM pack_sockaddr_un);
use MuxShare::Answers;
use MuxShare::Guests;
use MuxShare::Relay;
use MuxShare::Session;
use MuxShare::Wire;

# How many seconds mux-share has to come at first, how often it is looked for until then, and how many connections a
# guest may have open at once.
use constant { COME => 5, LOOK => 0.2, PENDING => 12 };
# How many seconds the owner's terminal may take to come back when muxd was killed.  Until then no guest is let in, and
# after that none can type.
use constant BACK => 10;
# How many seconds after the owner's terminal came it is told something: its own command fit clears what was said before.
use constant FITTED => 1;

# PLACE is the folder, LOCK its lock, READY what gets the line 'ready' once it serves, CALLER the process of mux-share,
# SCRIPTS the folder of mux-shell, NAME the session's, TITLE the shell's, KEEP the number of its kept lines.
sub new {
    my ($class, %given) = @_;
    my ($owner) = mux_names(getpwuid($>) // '', $>);
    my $session = MuxShare::Session->new(%given{qw(place scripts title keep)}, owner => $owner);
    my $relays = {};
    return bless {
        %given{qw(place lock ready caller name)},
        session => $session,
        guests  => MuxShare::Guests->new($session, sub { hang_up($session, $relays, @_) }),
        relays  => $relays,   # the guest's uid, by process
        ending  => 0,
    }, $class;
}

# Ends the connections of the guest with a key.
sub hang_up {
    my ($session, $relays, $key) = @_;
    $session->end_web if $key =~ /^web /;
    kill 'TERM', grep { $relays->{$_} eq $key } keys %$relays;
}

# Removes the files that an interrupted start or end left in the place.
sub sweep {
    my ($place) = @_;
    opendir(my $inside, $place) or return;
    my @left = map { "$place/$_" } grep { !/^\.\.?$/ } readdir $inside;
    system 'rm', '-rf', '--', @left if @left;
}

# Returns the socket that others reach.
sub open_door {
    my ($self) = @_;
    my $path = "$self->{place}/door";
    socket(my $door, PF_UNIX, SOCK_STREAM, 0) or die "can't make a socket: $!\n";
    bind($door, pack_sockaddr_un($path)) or die "can't make $path: $!\n";
    chmod 0666, $path;
    listen($door, 128) or die "can't listen at $path: $!\n";
    return $door;
}

# Returns the FIFO that each terminal of the owner holds open: it ends when the last of them ends.
sub open_here {
    my ($self) = @_;
    my $path = "$self->{place}/own/here";
    sysopen(my $fifo, $path, O_RDONLY | O_NONBLOCK) or die "can't open $path: $!\n";
    return $fifo;
}

# Invites guests.  GUESTS are four words each: account, uid, 1 if they may type, seconds or 0.
sub invite {
    my ($self, $by, @guests) = @_;
    while (@guests >= 4) {
        my $fault = $self->{guests}->add(splice(@guests, 0, 4), $by);
        return $fault if $fault ne '';
    }
    return '';
}

# In a process of its own: waits until the keeper is gone.
sub start_guard {
    my ($self) = @_;
    my $process = fork;
    die "can't start a process: $!\n" unless defined $process;
    return $self->{guard} = $process if $process;
    $self->become('mux-share-guard');
    eval { $self->{session}->guard($self->{life}) };
    POSIX::_exit(0);
}

# Gives up what only the keeper may have, in a process that isn't the keeper.
sub become {
    my ($self, $name) = @_;
    $0 = $name;
    $SIG{$_} = 'DEFAULT' for qw(CHLD TERM HUP INT);
    close $_ for grep { defined } @$self{qw(door came signalled alive here lock ready)}, $self->{session}->news_pipes;
}

# Keeps the session until it ends.  If the start fails, this dies with the reason.
sub keep {
    my ($self, %of) = @_;
    umask 077;
    $SIG{$_} = 'IGNORE' for qw(HUP PIPE);
    sweep($self->{place});
    pipe($self->{life}, $self->{alive}) or die "can't make a pipe: $!\n";
    pipe($self->{came}, $self->{signalled}) or die "can't make a pipe: $!\n";
    $self->{session}->prepare;
    $self->{session}->start_server;
    POSIX::mkfifo("$self->{place}/own/here", 0600) or die "can't make $self->{place}/own/here: $!\n";
    $self->{session}->start_shell(@of{qw(rows cols mask environment)}, @{ $of{command} });
    $self->start_guard;
    my $fault = $self->invite('you', @{ $of{guests} });
    if ($fault ne '') {
        die "$of{command}[0] ended at once\n" if $self->{session}->ended_at_once;
        die "$fault\n";
    }
    $self->{door} = $self->open_door;
    $self->{here} = $self->open_here;
    $SIG{CHLD} = sub { syswrite($self->{signalled}, 'c') };
    $SIG{$_} = sub { $self->{ending} = 1; syswrite($self->{signalled}, 'e') } for qw(TERM INT);
    # If nobody reads this, the start was interrupted.
    $self->serve if write_all($self->{ready}, "ready\n") && close $self->{ready};
    log_line('the session ends');
    $self->close_door;
    $self->end;
}

# Ends the session, and nothing of it stays.
sub end {
    my ($self) = @_;
    kill 'KILL', $self->{guard} if $self->{guard};
    $self->{session}->end;
}

# Removes the door first, so that nobody takes an ending session for one that is there.
sub close_door {
    my ($self) = @_;
    unlink "$self->{place}/door";
    close $self->{door};
}

# Lets nobody in before the owner is here.  If mux-share was interrupted before it came, the session ends.  No fault of
# a turn ends it.
sub serve {
    my ($self) = @_;
    my $latest = now() + COME;
    until ($self->{ending}) {
        eval { $self->turn($self->{was_here} ? undef : $latest - now()); 1 } and next;
        log_line('fault: ' . $@ =~ s/\n$//r);
        pause(1);
    }
}

# Waits until something comes, and handles it.  LEFT are the seconds that the owner has to come, if they haven't yet.
sub turn {
    my ($self, $left) = @_;
    return $self->{ending} = 1 if defined $left && ($left <= 0 || !kill 0, $self->{caller});
    return $self->{ending} = 1 unless $self->{session}->go_on;
    $self->{look_at} = now() + BACK if $self->{session}->is_anew;
    my $wait = $self->{guests}->keep_time;
    my $is_soon = defined $left || $self->{look_at} || $self->{greet_at} || $self->{session}->is_lost;
    $wait = LOOK if $is_soon && LOOK < $wait;
    my $ready = '';
    my @news = $self->{session}->news_pipes;
    vec($ready, fileno $_, 1) = 1 for @$self{qw(door came here)}, @news;
    my $count = select($ready, undef, undef, $wait);
    if ($self->{look_at} && now() > $self->{look_at}) {
        $self->{look_at} = 0;
        $self->look_again;
    }
    $self->greet if $self->{greet_at} && now() > $self->{greet_at};
    return if $count <= 0;
    $self->reap if vec($ready, fileno $self->{came}, 1);
    $self->hear if grep { vec($ready, fileno $_, 1) } @news;
    $self->look_here if vec($ready, fileno $self->{here}, 1);
    $self->answer_door if vec($ready, fileno $self->{door}, 1);
}

# Handles processes that have ended.
sub reap {
    my ($self) = @_;
    sysread($self->{came}, my $signals, 512);
    while ((my $gone = waitpid(-1, WNOHANG)) > 0) {
        next if delete $self->{relays}{$gone};
        if ($gone == $self->{guard}) { $self->start_guard }
        elsif ($self->{session}->is_web($gone)) { $self->{guests}->drop_browsers }
        elsif ($self->{session}->is_ended_by($gone, $?)) { $self->{ending} = 1 }
    }
}

# Handles clients that came and went, as muxd says, and CHANGES that nobody has said.
sub hear {
    my ($self, @changes) = @_;
    my $session = $self->{session};
    for my $change ($session->read_news, @changes) {
        my ($came, $name) = @$change;
        $self->{look_at} = 0 if $came && $name eq $session->owner;
        if ($name ne $session->owner) { $self->{guests}->announce($came, $name) }
        elsif (!$came) { $self->look_away unless $session->clients_of($name) }
        elsif ($session->clients_of($name) == 1) { $self->meet }
    }
}

# The owner is attached for the first time, or came back.
sub meet {
    my ($self) = @_;
    $self->{greeting} = $self->{was_attached}++ ? $self->{is_away} ? 'back here' : '' : first_line($self);
    $self->{greet_at} = now() + FITTED;
    $self->{is_away} = 0;
}

# Tells the owner what they have to know.
sub greet {
    my ($self) = @_;
    $self->{greet_at} = 0;
    my $line = $self->{greeting};
    $line = 'back here: no guest can type until mux-share --give NAME' if $self->{guests}->was_taken;
    $self->{session}->tell($line) if $line ne '';
}

# Looks whether the owner's last terminal is gone.  If it never was attached, the start was interrupted.
sub look_here {
    my ($self) = @_;
    my $count = sysread($self->{here}, my $bytes, 512);
    $self->{was_here} = 1 if $count;
    return unless defined $count && $count == 0;
    # What muxd said comes first: this terminal may have been attached for a moment.
    $self->hear;
    return $self->{ending} = 1 unless $self->{was_attached} || !$self->{was_here};
    # The FIFO is opened again before its old end is closed: a terminal that comes meanwhile always has a reader.
    $self->{here} = $self->open_here;
    $self->look_away;
}

# Asks muxd who is there, as it is this moment.
sub look_again {
    my ($self) = @_;
    $self->hear;
    $self->hear($self->{session}->count_clients);
    $self->look_away unless $self->{session}->clients_of($self->{session}->owner);
}

# The owner is away.  Then no guest may type, since nobody watches.
sub look_away {
    my ($self) = @_;
    $self->{greet_at} = 0;
    my $could_type = $self->{guests}->take_unwatched;
    $self->cut_off if $self->{guests}->is_pending;
    return if $self->{is_away} || !grep { $self->{session}->clients_of($_->{name}) } $self->{guests}->all;
    $self->{is_away} = 1;
    $self->{session}->tell('away now, so nobody can type' . ($could_type ? ' any more' : ''));
}

# Ends the connections of guests who may still type although nobody watches, since muxd refused to take it.
sub cut_off {
    my ($self) = @_;
    kill 'TERM', keys %{ $self->{relays} };
    $self->{session}->end_web;
}

sub answer_door {
    my ($self) = @_;
    accept(my $peer, $self->{door}) or return;
    my $uid = peer_uid($peer);
    if ($uid == $>) { $self->answer_owner($peer) }
    elsif (!$self->{was_here} || $self->{look_at} || $self->{guests}->is_pending || $self->{session}->is_lost) { return }
    # The number may be another account's by now.
    elsif (my $guest = $self->{guests}->guest($uid)) {
        $self->let_in($peer, $uid) if (getpwnam($guest->{account}) // -1) == $uid;
    }
}

# Gives a guest's connection a process of its own.
sub let_in {
    my ($self, $peer, $uid) = @_;
    my $attached = grep { $_ == $uid } values %{ $self->{relays} };
    return if $attached >= PENDING;
    my $wait = $self->{guests}->must_wait($uid);
    my $guest = $self->{guests}->guest($uid);
    my %answers = (hello => [welcome($self, $guest)], list => [list_for_guest($self)], ask => ['the owner was asked']);
    my $line = "$guest->{account} asks for the keyboard: mux-share --give $guest->{account}";
    my $process = fork;
    return unless defined $process;
    if ($process) {
        $self->{relays}{$process} = $uid;
        return;
    }
    $self->become('mux-door');
    eval {
        relay(
            client => $peer, life => $self->{life}, socket => "$self->{place}/own/socket", name => $guest->{name},
            token => $self->{session}->token($guest->{name}), wait => $wait, attached_now => $attached,
            answers => \%answers, ask => sub { $self->{session}->tell($line) },
            note => sub { $self->{session}->tell_columns($guest->{account}, @_) },
        );
    };
    POSIX::_exit(0);
}

# Answers a line of mux-share, which comes at once: 'ok' and text, or 'fault' and the reason.  The answer to 'end' stays
# open as long as this process lives, so mux-share --end returns when everything is removed.
sub answer_owner {
    my ($self, $peer) = @_;
    my $line = '';
    local $SIG{ALRM} = sub { die "late\n" };
    eval {
        alarm 2;
        while ($line !~ /\n/) { sysread($peer, $line, 4096, length $line) or last }
        1;
    };
    alarm 0;
    return unless $line =~ s/\n.*//s;
    my $is_inside = $self->{session}->is_inside(peer_process($peer));
    my @said = eval { $self->command($is_inside, split / /, $line) };
    @said = ($@ =~ s/\n$//r, '') if $@ ne '';
    write_all($peer, $said[0] eq '' ? "ok\n$said[1]" : "fault\n$said[0]\n");
    push @{ $self->{enders} }, $peer if $self->{ending};
}

# Whether the owner was here and isn't any more.
sub is_unwatched {
    my ($self) = @_;
    $self->look_again;
    return $self->{was_attached} && !$self->{session}->clients_of($self->{session}->owner);
}

# Does a request of mux-share.  Returns a fault or '', and text.
sub command {
    my ($self, $is_inside, $word, @rest) = @_;
    my $guests = $self->{guests};
    # Whoever may type in the shell can use mux-share there, so this says what is known of who asks.
    my $typists = join ', ', $guests->typists;
    my $by = $is_inside && $typists ne '' ? "somebody in the shell, while $typists could type" : 'you';
    my %types = (with => $rest[2], web => $rest[1], give => 1);
    return ('no terminal of yours is attached, so nobody would see what guests type: mux-share comes back first', '')
        if $types{$word} && $self->is_unwatched;
    my %requests = (
        with  => sub { ($self->invite($by, @rest), invited($self, map { $rest[4 * $_] } 0 .. $#rest / 4)) },
        web   => sub { $self->let_browse($by, @rest) },
        take  => sub { ($guests->take_back, "nobody else can type now\n") },
        give  => sub { $self->for_guest('give', @rest) },
        drop  => sub { $self->for_guest('drop', @rest) },
        list  => sub { ('', list($self)) },
        greet => sub { ('', greeting($self)) },
        left  => sub { $self->look_again; ('', left($self)) },
        state => sub { ('', 'attached ' . $self->{session}->clients_of($self->{session}->owner) . "\n") },
        end   => sub { $self->{ending} = 1; ('', '') },
    );
    my $request = $requests{$word} // return ("no such request: $word", '');
    return $request->();
}

# Gives the keyboard to a guest, or sends one away.  Returns a fault or '', and text.
sub for_guest {
    my ($self, $word, @name) = @_;
    my $guests = $self->{guests};
    my $name = join ' ', @name;
    my $key = $guests->key($name) // return (nobody($self, $name, $word), '');
    my $guest = $guests->guest($key);
    return ($guests->give($key), given($self, $guest)) if $word eq 'give';
    my $fault = $guests->drop($key, 'was sent away');
    return ("$guest->{account} may still be here, and mux-share tries again: muxd refused $fault", '') if $fault ne '';
    return ('', "$guest->{account} was sent away\n");
}

# Lets a guest join in a browser.  Returns a fault or '', and what mux-share prints.
sub let_browse {
    my ($self, $by, $name, @rest) = @_;
    my $address = $self->{session}->web_address;
    my $fault = $self->{guests}->add($name, 'web', @rest, $by);
    return ($fault, '') if $fault ne '';
    return ('', page($self, $self->{guests}->guest("web $name"), $address));
}

1;
