# Gives the windows that come back after a restart what they had: rights, titles, locks and numbers.
package MuxShare::Return;
use strict;
use warnings;
use Fcntl qw(O_WRONLY O_CREAT O_EXCL);
use MuxShare::Trail qw(BIT bits_of text_of untext);
use MuxShare::Wire qw(DONE REFUSED ATTACH KEYS DETACH GONE ANSWER ask connected content frame limit_time quoted
    read_exactly write_all);

# The most bytes of a line.
use constant LONGEST_LINE => 1000;
# What is kept of a window that isn't back, besides rights.
use constant FIELDS => qw(now opener opened_as title born number rows cols keep mode holder);

# SOCKET, USERS and PENDING are paths; TRAIL is the new file, BASE the old one; OLD is what that one leaves.
sub new {
    my ($class, %given) = @_;
    my $self = bless {
        %given,
        unfiled => [],   # commands that aren't in the file yet: user, line, the old window that they are about
        now     => {},   # numbers by serial, as far as known
        targets => {},   # old windows by the serial of the new one
        is_seen => {},   # serials of windows that were looked at
    }, $class;
    $self->{waiting} = [sort { $a->{number} <=> $b->{number} } values %{ $self->{old}{windows} }];
    $self->{unsure} = [@{ $self->{waiting} }];
    for my $opener (@{ $self->{old}{known} }) {
        $self->{closed}{$opener}{$_} = $self->closed($opener, $_) for $self->{old}->others;
    }
    return $self;
}

# What a closed mask leaves: what the mask does and the user has on each window that comes back as the opener's.
sub closed {
    my ($self, $opener, $user) = @_;
    my $old = $self->{old};
    my $bits = $old->mask($opener, $user);
    for my $window (values %{ $old->{windows} }) {
        $bits &= $old->bits($user, $window->{serial}) if $old->comes_back_as($window) eq $opener;
    }
    return $bits;
}

# Says something in the log.
sub say { print STDERR "mux-again: $_[0]\n" }

# Returns a user's token, or undef.
sub token {
    my ($self, $user) = @_;
    return content($self->{users}) =~ /^\Q$user\E +([0-9a-f]{64})$/m ? $1 : undef;
}

# Gives a command and returns what GONE had, or undef if it didn't come, and what was said.
sub given {
    my ($self, $user, $line, $number) = @_;
    my $token = $self->token($user) // return (REFUSED, 'no token');
    return ask($self->{socket}, $user, $token, $line, $number);
}

# Gives a command about an old window (undef: about none).  It counts once it is in the file: if the server has gone, it
# never is.  Returns whether it was done, as far as the server said.
sub give {
    my ($self, $about, $user, $line, $number) = @_;
    my ($gone, $said) = $self->given($user, $line, $number);
    if (($gone // DONE) ne DONE) { say("$user: $line: $said") }
    else { push @{ $self->{unfiled} }, { user => $user, line => $line, about => $about } }
    return defined $gone && $gone eq DONE;
}

# Gives lines of USERS with one HEAD and TAIL, as many users on each as fit.
sub give_packed {
    my ($self, $about, $user, $head, $between, $tail, @words) = @_;
    while (@words) {
        my $line = $head . shift @words;
        $line .= $between . shift @words while @words && length("$line$words[0]$tail") < LONGEST_LINE;
        $self->give($about, $user, $line . $tail);
    }
    return;
}

# Whether this line of the file is one that was given, which then counts.
sub filed {
    my ($self, $line) = @_;
    my (undef, undef, $kind, $user, undef, $text) = split / /, $line;
    return 0 unless $kind eq 'command';
    my ($found) = grep { $_->{user} eq $user && text_of($_->{line}) eq $text } @{ $self->{unfiled} };
    return 0 unless $found;
    $self->{unfiled} = [grep { $_ != $found } @{ $self->{unfiled} }];
    # Somebody was removed in the last moment, and the line made the name known again.
    for my $name ($line =~ / !known:(\w+)/g) {
        say("$name was removed meanwhile: removed again");
        $self->give(undef, $self->{live}{owner}, "acldel $name");
    }
    $self->settle($found->{about}) if $found->{about};
    return 1;
}

# An old window is settled once all that was given for it is in the file, and its number is right.
sub settle {
    my ($self, $old) = @_;
    my $serial = $old->{now} // return;
    return unless $self->{targets}{$serial} && $self->{now}{$serial} == $old->{number};
    return if grep { ($_->{about} // 0) == $old } @{ $self->{unfiled} };
    my @unsure = grep { $_ != $old } @{ $self->{unsure} };
    return if @unsure == @{ $self->{unsure} };
    $self->{unsure} = \@unsure;
    $self->save;
    return;
}

# The old windows that this one may be.
sub alike {
    my ($window, $old, @candidates) = @_;
    my $same = sub { my ($it) = @_; return $it->{opened_as} eq $window->{opened_as} && $it->{keep} == $window->{keep} };
    return grep { $old->comes_back_as($_) eq $window->{opener} && $same->($_) } @candidates;
}

# Looks at the windows that came since.  Returns how many.
sub look {
    my ($self) = @_;
    my $windows = $self->{live}{windows};
    $self->{now}{$_} //= $windows->{$_}{born} for keys %$windows;
    my @new = grep { !$self->{is_seen}{$_}++ } sort { $a <=> $b } keys %$windows;
    $self->back($windows->{$_}) for @new;
    return scalar @new;
}

# A window came: one that was there before, or another one, which gets what the masks are that were closed.
sub back {
    my ($self, $window) = @_;
    my ($live, $old) = @$self{qw(live old)};
    my ($opener, $serial) = @$window{qw(opener serial)};
    my $number = $self->{now}{$serial};
    my @same = alike($window, $old, @{ $self->{waiting} });
    if (!@same) {
        for my $user (grep { $live->knows($_) && $_ ne $opener } $old->others) {
            my $is_closed = $live->mask($opener, $user) == ($self->{closed}{$opener}{$user} // 7);
            my $more = $is_closed ? $old->mask($opener, $user) & ~$live->bits($user, $serial) : 0;
            my $letters = join '', grep { $more & BIT->{$_} } qw(r w x);
            $self->give(undef, $live->{owner}, "aclchg $user +$letters $number") if $more;
        }
        return;
    }
    my ($it) = ((grep { $_->{rows} == $window->{rows} && $_->{cols} == $window->{cols} } @same), @same);
    $self->{waiting} = [grep { $_ != $it } @{ $self->{waiting} }];
    $it->{now} = $serial;
    $self->save;
    $self->give_rights($it, $window, alike($window, $old, values %{ $old->{windows} }));
    $self->give($it, $live->{owner}, 'title ' . quoted($it->{title}), $number) if $it->{title} ne $window->{title};
    $self->lock($it, $window);
    $self->{targets}{$serial} = $it;
    $self->settle($it);
    return;
}

# Gives a window what the old one had.  Of several that can't be told apart it gets what all of them gave.
sub give_rights {
    my ($self, $it, $window, @same) = @_;
    my ($live, $old, $serial) = (@$self{qw(live old)}, $window->{serial});
    my %users;
    for my $user (grep { $live->knows($_) } $old->others) {
        my $bits = 7;
        $bits &= $old->bits($user, $_->{serial}) for @same;
        push @{ $users{$bits} }, $user if $bits != $live->bits($user, $serial);
    }
    for my $bits (sort keys %users) {
        my $tail = ' ' . bits_of($bits) . " $self->{now}{$serial}";
        $self->give_packed($it, $live->{owner}, 'aclchg ', ',', $tail, @{ $users{$bits} });
    }
    return;
}

# Gives a window its mode.  In mode on the holder keeps the lock, if they may still take it, else the owner has it.  In
# mode auto it is free, as after leaving: taking w from who took it frees it.
sub lock {
    my ($self, $it, $window) = @_;
    my ($live, $number) = ($self->{live}, $self->{now}{ $window->{serial} });
    my ($mode, $holder, $owner) = ($it->{mode}, $it->{holder}, $live->{owner});
    return if $mode eq $window->{mode} && ($mode ne 'on' || $holder eq $window->{holder});
    return $self->give($it, $owner, 'writelock off', $number) if $mode eq 'off';
    my @able = grep { $self->may_lock($_, $it) } $self->{old}->others;
    my $is_held = $mode eq 'on' && $holder ne '';
    my ($by) = $is_held ? grep { $_ eq $holder } @able : @able;
    $self->give($it, $by // $owner, "writelock $mode", $number);
    if ($is_held) { say_held($number) unless defined $by || $holder eq $owner }
    elsif (defined $by) { $self->give($it, $owner, "aclchg $by -w+w $number") }
    else { $self->leave_as($owner, $number) }
    return;
}

sub say_held { say("window $_[0]: the owner has its lock until they leave it") }

# Frees a lock that the owner took: a client of the owner goes to the window and leaves.
sub leave_as {
    my ($self, $owner, $number) = @_;
    my $server = connected($self->{socket}) or return;
    limit_time($server, ANSWER);
    my $first = frame(ATTACH, pack 'n n a64 a*', 24, 80, $self->token($owner), $owner);
    write_all($server, $first . frame(KEYS, "\1:select $number\r") . frame(DETACH, ''));
    while (defined(my $head = read_exactly($server, 3))) {
        my ($kind, $length) = unpack 'Cn', $head;
        read_exactly($server, $length) // last;
        return if $kind == GONE;
    }
    say_held($number);
    return;
}

# Whether a user other than the owner can lock a window by a line, and type there by an entry of their own.
sub may_lock {
    my ($self, $user, $it) = @_;
    return $self->{live}->knows($user) && defined $self->token($user) && $self->{live}->may($user, 'x', 'writelock')
        && ($self->{old}->bits($user, $it->{serial}) & 3) == 3;
}

# Gives windows that are back their numbers.  One that another window has waits until that one has its own.
sub number_all {
    my ($self) = @_;
    my ($now, $live) = @$self{qw(now live)};
    for my $serial (sort keys %{ $self->{targets} }) {
        my $it = $self->{targets}{$serial};
        next if !$live->{windows}{$serial} || $now->{$serial} == $it->{number};
        my ($other) = grep { $now->{$_} == $it->{number} } keys %{ $live->{windows} };
        if (defined $other) {
            next unless $self->{targets}{$other};
            my %is_taken = map { $now->{$_} => 1 } keys %{ $live->{windows} };
            my ($free) = grep { !$is_taken{$_} } reverse 0 .. 39;
            my @to_free = ($self->{targets}{$other}, $live->{owner}, "number $free", $it->{number});
            next unless $self->give(@to_free);
            $now->{$other} = $free;
        }
        $now->{$serial} = $it->{number} if $self->give($it, $live->{owner}, "number $it->{number}", $now->{$serial});
    }
    return;
}

# Whether a window has another number than it had, and no window has that one which wasn't there before.
sub is_misnumbered {
    my ($self) = @_;
    my ($now, $targets, @serials) = (@$self{qw(now targets)}, keys %{ $self->{live}{windows} });
    my %is_taken = map { $targets->{$_} ? () : ($now->{$_} => 1) } @serials;
    my @back = grep { $targets->{$_} } @serials;
    return scalar grep { $now->{$_} != $targets->{$_}{number} && !$is_taken{ $targets->{$_}{number} } } @back;
}

# Opens the masks that were closed, except those that somebody set meanwhile.
sub open_masks {
    my ($self) = @_;
    my ($live, $old) = @$self{qw(live old)};
    for my $opener (grep { $live->knows($_) } @{ $old->{known} }) {
        my @words = map { $_ . bits_of($old->mask($opener, $_)) } grep {
            my ($was, $is) = ($old->mask($opener, $_), $live->mask($opener, $_));
            $_ ne $opener && $live->knows($_) && $is != $was && $is == ($self->{closed}{$opener}{$_} // $is)
        } $old->others;
        $self->open_of($opener, @words) if @words;
    }
    return;
}

# An opener's masks are that user's own commands.  Who may not give them is lent x for a moment.  They could set presets
# meanwhile, so these are set again.
sub open_of {
    my ($self, $opener, @words) = @_;
    my ($live, $owner) = ($self->{live}, $self->{live}{owner});
    my $is_lent = $opener ne $owner && !($live->bits($opener, 'aclumask') & BIT->{x});
    if ($is_lent) {
        # Until all is in the file, so that the next start takes it back if this server ends meanwhile.
        my @presets = map { "aclumask $_" . bits_of($live->{presets}{$_}) } qw(? ??);
        push @{ $self->{old}{lent} }, "aclchg $opener -x aclumask", @presets;
        $self->save;
        $self->give(undef, $owner, "aclchg $opener +x aclumask");
    }
    $self->give_packed(undef, $opener, 'aclumask ', ' ', '', @words);
    return unless $is_lent;
    $self->give(undef, $owner, "aclchg $opener -x aclumask");
    $self->give(undef, $owner, "aclumask $_" . bits_of($live->{presets}{$_})) for qw(? ??);
    return;
}

# Returns the TEXT of a field, or - for what isn't defined.
sub field { return defined $_[0] ? text_of($_[0]) : '-' }

# Makes a file anew, at once.  Returns whether it could.
sub write_file {
    my ($path, $text) = @_;
    unlink "$path.new";
    sysopen(my $file, "$path.new", O_WRONLY | O_CREAT | O_EXCL, 0600) or return 0;
    return write_all($file, $text) && close $file && rename "$path.new", $path;
}

# Writes what isn't as it was yet, so that the next start goes on from here: windows, and masks that are closed.
sub save {
    my ($self) = @_;
    my $old = $self->{old};
    my @lines = ('trail ' . field($self->{trail}), 'base ' . field($self->{base}));
    push @lines, map { 'lent ' . field($_) } @{ $old->{lent} // [] };
    for my $it (@{ $self->{unsure} }) {
        my $bits = join ',', map { "$_:" . $old->bits($_, $it->{serial}) } $old->others;
        push @lines, join ' ', 'window', map({ field($it->{$_}) } FIELDS), field($bits), field($it->{hidden});
    }
    for my $opener (@{ $old->{known} }) {
        push @lines, map { "mask $opener $_ $self->{closed}{$opener}{$_} " . $old->mask($opener, $_) }
            grep { $self->{closed}{$opener}{$_} != $old->mask($opener, $_) } $old->others;
    }
    write_file($self->{pending}, join '', map { "$_\n" } @lines) or say("can't write $self->{pending}: $!");
    return;
}

# Writes which windows must not tell their old page: each user with a number that the window had when it was opened.
# Their programs read it.
sub write_hidden {
    my ($path, $old) = @_;
    my @lines;
    for my $it ($old ? values %{ $old->{windows} } : ()) {
        push @lines, map { $_ eq '' ? () : "$it->{opener} $_\n" } split /,/, $it->{hidden};
    }
    return write_file($path, join '', sort @lines) && chmod 0644, $path;
}

# Adds to what a trail leaves what the session before it was still bringing back.  SKIPPED are trails that don't count.
sub take_pending {
    my ($pending, $path, $old, @skipped) = @_;
    my (%of, @windows, @masks, @lent);
    for my $line (split /\n/, content($pending)) {
        my ($word, @fields) = split / /, $line;
        if ($word eq 'window') { push @windows, [map { $_ eq '-' ? undef : untext($_) } @fields] }
        elsif ($word eq 'mask') { push @masks, \@fields }
        elsif ($word eq 'lent') { push @lent, untext($fields[0]) }
        else { $of{$word} = untext($fields[0]) }
    }
    my $is_of_this = ($of{trail} // '') eq $path;
    # A start that ended before users were back: what it had to bring back is all of it.
    my $is_whole = !$is_of_this && ($of{base} // '') eq $path && grep { $_ eq $of{trail} } @skipped;
    return unless $is_of_this || $is_whole;
    # What a user was lent in the last moment is taken back; a line about somebody who is gone would make them known.
    $old->{lent} = [grep { !/^aclchg (\w+) / || $old->knows($1) } @lent];
    $old->{bits}{$_}{aclumask} &= ~BIT->{x} for map { /^aclchg (\w+) / } @{ $old->{lent} };
    $old->{windows} = {} if $is_whole;
    my @waiting = map { window_of($_) } @windows;
    # The file may have windows that came back in the last moment, and that nobody had looked at.
    my %is_taken = map { ($_->{now} // '') => 1 } @waiting;
    for my $window ($is_of_this ? values %{ $old->{windows} } : ()) {
        my @same = $is_taken{ $window->{serial} } ? () : alike($window, $old, grep { !defined $_->{now} } @waiting);
        $same[0]{now} = $window->{serial} if @same == 1;
    }
    my $next = -1;
    for my $it (@waiting) {
        my $now = $is_of_this ? $it->{now} : undef;
        next if defined $now && !$old->{windows}{$now} && $now < $old->{opened};
        my $back = defined $now ? $old->{windows}{$now} : undef;
        $it->{serial} = $back ? $now : $next--;
        # It may have come back to a server that ended before its program heard so.
        $it->{hidden} .= ",$back->{born}" if $back && "$it->{hidden}$back->{hidden}" ne '';
        delete $it->{now};
        $old->{windows}{ $it->{serial} } = $it;
        $old->{bits}{$_}{ $it->{serial} } = $it->{bits}{$_} // 0 for $old->others;
    }
    for (@masks) {
        my ($opener, $user, $closed, $true) = @$_;
        next unless $old->knows($opener) && $old->knows($user);
        my $is = $old->mask($opener, $user);
        $old->{masks}{$opener}{$user} = 0 + $true if $is_whole || $is == $closed;
    }
    return;
}

# A window of the file of what is pending.
sub window_of {
    my ($fields) = @_;
    my %it;
    @it{ +FIELDS } = @$fields;
    my $count = () = FIELDS;
    my ($bits, $hidden) = @$fields[$count, $count + 1];
    $it{bits} = { map { split /:/ } split /,/, $bits // '' };
    $it{hidden} = $hidden // '';
    $it{holder} //= '';
    return \%it;
}

1;
