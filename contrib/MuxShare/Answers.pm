# What the keeper says to mux-share and mux-join: who may do what, as far as the session did it.
package MuxShare::Answers;
use strict;
use warnings;
use Exporter qw(import);
use MuxShare::Guests;
use MuxShare::Wire;

our @EXPORT = qw(first_line given greeting invited left list list_for_guest nobody page welcome);

sub me { return getpwuid($>) // $> }

# Whether the owner went away, and isn't just coming for the first time.
sub is_away {
    my ($keeper) = @_;
    my $session = $keeper->{session};
    return $keeper->{was_attached} && !$session->clients_of($session->owner);
}

# Returns the line by which an account joins.
sub join_line {
    my ($keeper) = @_;
    return 'mux-join ' . ($keeper->{name} eq '' ? '' : "--name $keeper->{name} ") . me();
}

# Returns what some guests may do, who may all do the same.
sub may {
    my (@guests) = @_;
    my $names = join ', ', map { MuxShare::Guests::called($_) } @guests;
    my $limit = ucfirst MuxShare::Guests::limit($guests[0]);
    my $act = @guests > 1 ? 'act' : 'acts';
    my $what = $guests[0]{types} ? "can type here, and so $act as " . me() . ': files, keys, everything'
        : 'can see what this window shows and keeps, and nothing else of yours';
    return ($limit eq '' ? '' : "$limit ") . "$names $what.\n";
}

# Returns what holds for guests who were just invited.
sub invited {
    my ($keeper, @accounts) = @_;
    my @guests = grep { defined } map { $keeper->{guests}->guest($keeper->{guests}->key($_) // '') } @accounts;
    return '' unless @guests;
    return join(', ', map { $_->{account} } @guests) . ' can join with:   ' . join_line($keeper) . "\n" . may(@guests);
}

# Returns the lines for the owner of a new session.
sub greeting {
    my ($keeper) = @_;
    my @all = $keeper->{guests}->all;
    my @here = grep { !$_->{is_web} } @all;
    my $first = @here ? invited($keeper, map { $_->{account} } @here) : '';
    my $keys = "C-a d detaches, exit or C-a k ends it for all, mux-share --give NAME lets one guest type.\n";
    return $first . $keys;
}

# Returns the line that the owner's terminal shows at first.
sub first_line {
    my ($keeper) = @_;
    my @all = $keeper->{guests}->all;
    my $here = join ', ', map { $_->{account} } grep { !$_->{is_web} } @all;
    my $web = join ', ', map { $_->{account} } grep { $_->{is_web} } @all;
    my $line = $here eq '' ? '' : "$here can join with: " . join_line($keeper);
    return $web eq '' ? $line : $line . ($line eq '' ? '' : '; ') . "$web can join in a browser";
}

# Returns what it means that a guest may type.
sub given {
    my ($keeper, $guest) = @_;
    my $me = me();
    my $name = $guest->{account};
    return "While $name can type, they act as $me: files, keys, everything. mux-share --take takes it back.\n";
}

# Returns that somebody isn't a guest, and what to do.
sub nobody {
    my ($keeper, $name, $word) = @_;
    my $names = $keeper->{guests}->names;
    return $names eq '' ? 'nobody is in your session: mux-share --with NAME' : "whom: name one of $names" if $name eq '';
    return "$name isn't in your session: mux-share --with $name" if $word eq 'give' && $name !~ /[ ,]/;
    return "$name isn't in your session: " . ($names eq '' ? 'nobody is' : "name one of $names");
}

# Returns who may still do what after the owner left one terminal.
sub left {
    my ($keeper) = @_;
    my ($guests, $session) = @$keeper{qw(guests session)};
    my $back = "mux-share comes back, mux-share --end ends it\n";
    my $names = $guests->names;
    my $here = $session->clients_of($session->owner);
    my $typists = join ', ', $guests->typists;
    return "muxd refused to end the typing of guests, so nobody can join until it does: mux-share --end ends it\n"
        if $guests->is_pending;
    return "muxd refused to send " . $guests->leaving . " away, and mux-share tries again: mux-share --end ends it\n"
        if $guests->leaving ne '';
    return "$typists can type there, since another terminal of yours is attached\n" if $typists ne '';
    return ($names eq '' ? 'nobody else can see it: ' : "$names can still read it: ") . $back if $here;
    return ($names eq '' ? 'nobody else can see it: ' : "$names can still read it, and nobody types there: ") . $back;
}

# Returns how many terminals or pages a guest has, in words.
sub where {
    my ($keeper, $guest) = @_;
    my $count = $keeper->{session}->clients_of($guest->{name});
    my $what = $guest->{is_web} ? 'browser' : 'terminal';
    return $count == 0 ? 'not here' : $count == 1 ? "here, 1 $what" : "here, $count ${what}s";
}

# Returns the table of mux-share --list.
sub list {
    my ($keeper) = @_;
    my ($guests, $session) = @$keeper{qw(guests session)};
    my $here = $session->clients_of($session->owner);
    my $text = sprintf "%s: %d terminal%s of yours attached\n", $session->title, $here, $here == 1 ? '' : 's';
    $text .= "nobody can join until muxd takes the typing that it refused to take\n" if $guests->is_pending;
    $text .= $guests->leaving . " may still be here: muxd refused to send them away\n" if $guests->leaving ne '';
    my @rows = (['GUEST', 'WHERE', 'MAY', 'HOW LONG', 'INVITED BY']);
    for my $guest ($guests->all) {
        my $limit = MuxShare::Guests::limit($guest);
        push @rows, [MuxShare::Guests::called($guest), where($keeper, $guest), $guest->{types} ? 'type' : 'look',
            $limit eq '' ? 'no limit' : $limit, $guest->{by}];
    }
    return $text . "nobody is invited\n" if @rows == 1;
    for my $column (0 .. 3) {
        my ($width) = sort { $b <=> $a } map { length $_->[$column] } @rows;
        $_->[$column] .= ' ' x ($width - length $_->[$column]) for @rows;
    }
    return $text . join '', map { join('  ', @$_) . "\n" } @rows;
}

# Returns the lines of mux-join --list: who is here, and who may type.
sub list_for_guest {
    my ($keeper) = @_;
    my ($guests, $session) = @$keeper{qw(guests session)};
    return (me() . ', whose shell it is: ' . (is_away($keeper) ? 'away, so nobody can type' : 'here'),
        map { "$_->{account}: here" . ($_->{types} ? ', may type' : '') }
        grep { $session->clients_of($_->{name}) } $guests->all);
}

# Returns what mux-join gets before it attaches: the window's size, and what the guest may do.
sub welcome {
    my ($keeper, $guest) = @_;
    my $session = $keeper->{session};
    my $limit = MuxShare::Guests::limit($guest);
    my $what = ($guest->{types} ? 'you can type' : 'you can look, not type') . ($limit eq '' ? '' : ", $limit");
    $what .= ', and ' . me() . ' is away' if is_away($keeper);
    return (join(' ', $session->size), $what);
}

# Returns what somebody with a browser needs.  Only the terminal of the owner that asked shows it.
sub page {
    my ($keeper, $guest, $address) = @_;
    my $name = $guest->{account};
    my $token = $keeper->{session}->token($guest->{name});
    my ($port) = $address =~ /:(\d+)/;
    return "$name can open this link in a browser on this host:\n\n$address#$guest->{name}=$token\n\n"
        . "On another host it works after:   ssh -N -L $port:127.0.0.1:$port HOST\n" . may($guest)
        . ($guest->{types} ? "mux-share --take takes it back.\n" : '');
}

1;
