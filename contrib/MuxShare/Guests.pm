# The guests: accounts that may join, by uid, and people with a browser, by "web" and their name.  Who they are in the
# session, whether they may type, and for how long.
package MuxShare::Guests;
use strict;
use warnings;
use Exporter qw(import);
use POSIX ();
use MuxShare::Wire;

our @EXPORT = qw(mux_names);

# How many seconds before its end a guest's time is announced, how often a clock is looked at that no timer follows, and
# how often something is tried again.
use constant { WARNING => 60, LOOK => 60, AGAIN => 1 };
# A guest may connect CONNECTIONS times at once, and then once in SECONDS_EACH seconds, since each attaching writes
# entries to the session's trail.  mux-join connects twice, once to ask and once to attach.
use constant { CONNECTIONS => 20, SECONDS_EACH => 5 };

# Returns the names that an account may have in the session, the best first: its own, one as near to it as mux allows,
# and its number.
sub mux_names {
    my ($account, $uid) = @_;
    my $near = substr(lc($account) =~ tr/a-z0-9_/_/cr, 0, 20);
    return grep { /^[a-z][a-z0-9_]{0,19}$/ && $_ ne 'none' } $account, $near, "u$uid";
}

# HANG_UP ends the connections of the guest with a key, as far as it can.
sub new {
    my ($class, $session, $hang_up) = @_;
    return bless { session => $session, hang_up => $hang_up, guests => {}, leaving => {}, was_taken => 0,
        is_pending => 0 }, $class;
}

# Returns the guest with this key, or undef: name (in the session), account, is_web, types, end, by, is_warned,
# connections (how many are left) and counted (when that was).
sub guest { my ($self, $key) = @_; return $self->{guests}{$key} }

sub all { my ($self) = @_; return map { $self->{guests}{$_} } sort keys %{ $self->{guests} } }

# Returns the key of the guest whose account or whose name in the session this is, or undef; of '', that of the only
# guest.
sub key {
    my ($self, $name) = @_;
    my $guests = $self->{guests};
    return keys %$guests == 1 ? (keys %$guests)[0] : undef if $name eq '';
    my ($key) = grep { $guests->{$_}{account} eq $name } keys %$guests;
    ($key) = grep { $guests->{$_}{name} eq $name } keys %$guests unless defined $key;
    return $key;
}

# Returns a guest's name for people, with the one that pages show.
sub called {
    my ($guest) = @_;
    return $guest->{account} . ($guest->{name} eq $guest->{account} ? '' : " (here $guest->{name})");
}

sub names { my ($self) = @_; return join ', ', map { $_->{account} } $self->all }

# Returns the accounts of those who may type.
sub typists { my ($self) = @_; my @all = grep { $_->{types} } $self->all; return map { $_->{account} } @all }

# Whether w was taken from all because the owner was away, and whether that couldn't be done yet.
sub was_taken { return $_[0]{was_taken} }
sub is_pending { return $_[0]{is_pending} }

# Gives the owner's commands in turn.  Returns the first that was refused, with the reason, or ''.
sub give_all {
    my ($self, @lines) = @_;
    for my $line (@lines) {
        my ($is_done, $said) = $self->{session}->give($line);
        return "$line: $said" unless $is_done;
    }
    return '';
}

# The title says soon who may type (keep_time): nobody waits for it.
sub show_typing { my ($self) = @_; $self->{is_title_due} = 1 }

# Returns the commands by which a guest loses what TAKEN says, and has what every guest has, and BITS on the shell.
# Before anything is granted, a new guest has no right at all, here and on windows to come; nor has one whom the owner
# removed by acldel.
sub lines_for {
    my ($name, $taken, $bits) = @_;
    my @common = ("aclumask $name-rwx", "aclchg $name +x detach,scrollview,wall");
    return ("aclchg $name $taken", @common, "aclchg $name +$bits 0");
}

sub no_shell { return 'window 0 is no longer the shared shell (its number or title was changed)' }

# Returns the name that a guest has or gets in the session, or undef.
sub free_name {
    my ($self, $account, $key) = @_;
    my $guests = $self->{guests};
    return $guests->{$key}{name} if $guests->{$key};
    my %taken = map { $_ => 1 } $self->{session}->owner, keys %{ $self->{leaving} }, map { $_->{name} } values %$guests;
    return (grep { !$taken{$_} } $key =~ /^web / ? $account : mux_names($account, $key))[0];
}

# Lets an account join, or with the uid "web" somebody with a browser, and says what they may do, now and if they were
# here before.  BY says who invites them.  Returns a fault, or ''.
sub add {
    my ($self, $account, $uid, $types, $seconds, $by) = @_;
    my $key = $uid eq 'web' ? "web $account" : $uid;
    return "$account can't be invited (uid $uid)" if $uid eq $> || $uid eq NOBODY;
    my $name = $self->free_name($account, $key) // return "somebody else has the name $account here";
    return no_shell() unless $self->{session}->has_shell;
    my $guest = $self->{guests}{$key};
    my $taken = !$guest ? '-rwx #?' : $types ? '-x #' : '-wx #';
    my $fault = $self->give_all(lines_for($name, $taken, 'r' . ($types ? 'w' : '')));
    $self->{session}->drop_typed if $fault eq '' && $guest && $guest->{types} && !$types;
    # The token comes last: before it, the session takes nothing that the guest sends.
    $fault = $self->{session}->add_user($name) if $fault eq '';
    if ($fault ne '') {
        $self->{session}->give("acldel $name") unless $guest;
        return $fault;
    }
    $guest = $self->{guests}{$key} //= { name => $name, account => $account, is_web => $uid eq 'web', by => $by,
        connections => CONNECTIONS, counted => now() };
    @$guest{qw(types end is_warned)} = ($types, $seconds ? now() + $seconds : 0, 0);
    $self->{was_taken} = 0 if $types;
    $self->show_typing;
    my $how = ($types ? ' and type' : '') . ($seconds ? ", for $seconds s" : '');
    log_line("$account ($uid) may join$how, invited by $by");
    return '';
}

# Returns the names of those who were sent away and may still be there, since muxd refused.
sub leaving { my ($self) = @_; return join ', ', sort keys %{ $self->{leaving} } }

# Has the session forget a name, now or later (keep_time tries again).  Returns a fault, or ''.
sub forget {
    my ($self, $name) = @_;
    my ($is_done, $said) = $self->{session}->give("acldel $name");
    return $self->{leaving}{$name} = "acldel $name: $said" unless $is_done || $said =~ /\bacl: 1\b/;
    delete $self->{leaving}{$name};
    return '';
}

# Sends a guest away for good.  Returns a fault, or ''.
sub drop {
    my ($self, $key, $why) = @_;
    my $guest = delete $self->{guests}{$key} or return '';
    # The token goes first, so that nobody comes back between the two.  Even if the file can't be written, the session
    # doesn't know the name any more.
    $self->{session}->remove_user($guest->{name});
    my $fault = $self->forget($guest->{name});
    $self->{hang_up}->($key) if $fault ne '';
    $self->{session}->drop_typed if $guest->{types};
    $self->{session}->tell("$guest->{account} " . ($fault eq '' ? $why : 'may still be here: muxd refused to send them away'));
    $self->show_typing if $guest->{types};
    log_line("$guest->{account} $why");
    return $fault;
}

# Sends away whoever has a link: by the time somebody opens it, its port may be that of another account, and nobody may
# come by the token in it.
sub drop_browsers {
    my ($self) = @_;
    $self->drop($_, 'has gone: mux-web has ended') for grep { $self->{guests}{$_}{is_web} } keys %{ $self->{guests} };
}

# Takes w from all guests, with what they have typed and no program has read.  Returns a fault, or ''.
sub take {
    my ($self) = @_;
    my $fault = %{ $self->{guests} } || %{ $self->{leaving} } ? $self->give_all('aclchg * -w #') : '';
    return $fault if $fault ne '';
    $self->{session}->drop_typed if $self->typists;
    $_->{types} = 0 for values %{ $self->{guests} };
    $self->show_typing;
    return '';
}

# Takes w from all guests because the owner's last terminal is gone, also what the owner gave by aclchg.  If the session
# refuses, nobody is let in until it is done (keep_time tries again).  Returns whether somebody could type before.
sub take_unwatched {
    my ($self) = @_;
    my $was_possible = $self->typists > 0;
    $self->{is_pending} = $self->take ne '';
    $self->{session}->shut($self->{is_pending});
    $self->{was_taken} ||= $was_possible;
    return $was_possible;
}

# Takes w from all guests because the owner asks for it, and tells everybody.  Returns a fault, or ''.
sub take_back {
    my ($self) = @_;
    my $fault = $self->take;
    return $fault if $fault ne '';
    @$self{qw(was_taken is_pending)} = (0, 0);
    $self->{session}->shut(0);
    $self->{session}->tell('nobody else may type');
    return '';
}

# Gives w to one guest, once nobody else has it.
sub give {
    my ($self, $key) = @_;
    my $guest = $self->{guests}{$key};
    return no_shell() unless $self->{session}->has_shell;
    my $fault = $self->take;
    $fault = $self->give_all(lines_for($guest->{name}, '-x #', 'rw')) if $fault eq '';
    return $fault if $fault ne '';
    $guest->{types} = 1;
    @$self{qw(was_taken is_pending)} = (0, 0);
    $self->{session}->shut(0);
    $self->show_typing;
    $self->{session}->tell("$guest->{account} may type");
    return '';
}

# Returns 0 if a guest may connect now, or else the seconds until they may.
sub must_wait {
    my ($self, $key) = @_;
    my $guest = $self->{guests}{$key};
    my $earned = int((now() - $guest->{counted}) / SECONDS_EACH);
    if ($earned > 0) {
        $guest->{counted} += $earned * SECONDS_EACH;
        $guest->{connections} += $earned;
        $guest->{connections} = CONNECTIONS if $guest->{connections} > CONNECTIONS;
    }
    return POSIX::ceil($guest->{counted} + SECONDS_EACH - now()) || 1 if $guest->{connections} == 0;
    $guest->{connections}--;
    return 0;
}

# Tells everybody that a user came or went, if it is a guest.
sub announce {
    my ($self, $came, $name) = @_;
    my ($key) = grep { $self->{guests}{$_}{name} eq $name } keys %{ $self->{guests} } or return;
    my $guest = $self->{guests}{$key};
    # A page in a browser can come and go without the door.
    return if $guest->{is_web} && $self->must_wait($key);
    my $count = $self->{session}->clients_of($name);
    my $how = $guest->{is_web} ? ' in a browser' : '';
    my $more = $guest->{types} ? ', and may type' : '';
    my $what = $came ? $count > 1 ? "has joined again$how, and is here $count times" : "has joined$how$more"
        : $count > 0 ? 'has left one terminal, and is still here' : 'has left';
    $self->{session}->tell("$guest->{account} $what");
}

# Whether something couldn't be done that is tried again.
sub is_left { my ($self) = @_; return $self->{is_pending} || %{ $self->{leaving} } || $self->{session}->is_unwritten }

# Tries again, at most once a second, what couldn't be done: to take w, to send guests away, to write the users' file.
# muxd makes an owner wait who is refused too often.  Returns whether something is left to do.
sub try_again {
    my ($self) = @_;
    return 0 unless $self->is_left;
    return 1 if now() < ($self->{tried} // 0) + AGAIN;
    $self->{tried} = now();
    $self->take_unwatched if $self->{is_pending};
    $self->forget($_) for keys %{ $self->{leaving} };
    $self->{session}->write_users if $self->{session}->is_unwritten;
    return $self->is_left;
}

# Drops guests whose time is over, warns those whose time is nearly over, and tries again what couldn't be done.
# Returns the seconds until its next call.
sub keep_time {
    my ($self) = @_;
    $self->{session}->show_typing($self->typists) if delete $self->{is_title_due};
    my $next = $self->try_again ? AGAIN : LOOK;
    for my $key (keys %{ $self->{guests} }) {
        my $guest = $self->{guests}{$key};
        next unless $guest->{end};
        my $left = $guest->{end} - now();
        if ($left <= 0) {
            $self->drop($key, 'has gone: the time is over');
            next;
        }
        if ($left <= WARNING && !$guest->{is_warned}) {
            $guest->{is_warned} = 1;
            $self->{session}->tell("$guest->{account} goes in " . POSIX::ceil($left) . ' s');
        }
        my $wait = $guest->{is_warned} ? $left : $left - WARNING;
        $next = $wait if $wait < $next;
    }
    return $self->{is_title_due} ? 0 : $next;
}

# Returns until when a guest may stay, or ''.
sub limit {
    my ($guest) = @_;
    return '' unless $guest->{end};
    my $left = $guest->{end} - now();
    my $form = $left < 600 ? '%H:%M:%S' : $left < 12 * 3600 ? '%H:%M' : '%Y-%m-%d %H:%M';
    return POSIX::strftime("until $form", localtime(int(time + $left + 0.5)));
}

1;
