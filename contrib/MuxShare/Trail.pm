# What the file of a trail leaves, entry by entry: users, leaders, rights, masks, presets, locks, windows and the mode.
# It judges nothing; mux-trail does.
package MuxShare::Trail;
use strict;
use warnings;
use Exporter qw(import);

our @EXPORT_OK = qw(BIT bits_of text_of untext words);

# The value of each bit, and all commands.
use constant BIT => { r => 4, w => 2, x => 1 };
use constant COMMANDS => qw(acladd aclchg acldel aclgrp aclumask writelock defwritelock multiuser wall detach select
    next prev other title number kill screen split focus remove only fit scrollview clear reset encoding stuff windows
    displays quit);
my %lists = map { $_ => 1 } qw(acladd aclchg acldel aclgrp aclumask);
# How many words an event has.
my %words_of = (attach => 4, detach => 2, keys => 2, command => 4, open => 6, closed => 2);

# Returns the bytes of a TEXT, and the TEXT of bytes.
sub untext { return substr($_[0], 1) =~ s/\\([0-9a-f]{2})/chr hex $1/ger }
sub text_of { return '.' . $_[0] =~ s/([^\x21-\x5b\x5d-\x7e])/sprintf '\\%02x', ord $1/ger }

# Returns bits as BITS that set all three.
sub bits_of {
    my ($bits) = @_;
    my $plus = join '', grep { $bits & BIT->{$_} } qw(r w x);
    my $minus = join '', grep { !($bits & BIT->{$_}) } qw(r w x);
    return ($plus ne '' ? "+$plus" : '') . ($minus ne '' ? "-$minus" : '');
}

# Returns the words of a command's line, or nothing if it has no such words.
sub words {
    my ($line) = @_;
    my @words;
    while ($line =~ /\G *((?:'[^']*'|"(?:[^"\\]|\\.)*"|\\.|[^ '"\\])+)/gcs) {
        my ($part, $word) = ($1, '');
        while ($part =~ /\G(?:'([^']*)'|"((?:[^"\\]|\\.)*)"|((?:\\.|[^'"\\])+))/gs) {
            if (defined $1) { $word .= $1; next }
            my $text = $2 // $3;
            $word .= $text =~ s/\\(?:([01][0-7][0-7])|(.))/defined $1 ? chr oct $1 : $2/gesr;
        }
        push @words, $word;
    }
    return $line =~ /\G *\z/ ? @words : ();
}

# After the first line of a file.
sub new {
    my ($class, $first) = @_;
    my ($kind, $form, $edition, $owner, undef, $began) = split / /, $first;
    return unless ($kind // '') eq 'mux-trail' && $form eq '1' && defined $began;
    return bless {
        edition => $edition, owner => $owner, began => $began, known => [$owner], leaders => {}, bits => {},
        masks => {}, presets => { '?' => 7, '??' => 7 }, mode => 'off', default => 'off', windows => {}, clients => {},
        opened => 0,
        entries => 0, ended => '', continues => '', is_restored => 0, goes_on => 0,
    }, $class;
}

# After all lines of a file that are whole, or undef if it is no trail.
sub read_file {
    my ($class, $path) = @_;
    open(my $file, '<', $path) or return;
    my $first = <$file> // '';
    return unless $first =~ s/\n\z//;
    my $trail = $class->new($first) // return;
    while (my $line = <$file>) { $trail->take($line) if $line =~ s/\n\z// }
    return $trail;
}

sub others { my ($self) = @_; return grep { $_ ne $self->{owner} } @{ $self->{known} } }

sub knows { my ($self, $user) = @_; return scalar grep { $_ eq $user } @{ $self->{known} } }

# The bits of a user's own entry on an object: a command's name or a window's serial.
sub bits { my ($self, $user, $object) = @_; return $self->{bits}{$user}{$object} // 0 }

# The bits that an opener's mask leaves a user.
sub mask { my ($self, $opener, $user) = @_; return $self->{masks}{$opener}{$user} // 7 }

# Whether a user has the bit, by their own entry or by a leader's.
sub may {
    my ($self, $user, $bit, $object) = @_;
    return 1 if $user eq $self->{owner};
    return !!grep { $self->bits($_, $object) & BIT->{$bit} } $user, @{ $self->{leaders}{$user} // [] };
}

# Whose window this one is when it comes back: what somebody opened who is gone can only be opened by the owner.
sub comes_back_as {
    my ($self, $window) = @_;
    return $self->knows($window->{opener}) ? $window->{opener} : $self->{owner};
}

# Takes the next line of the file, without its line feed.
sub take {
    my ($self, $line) = @_;
    if ($line =~ /^end \d+ \d+ (\w+)/) { $self->{ended} = $1; return }
    $self->{entries}++;
    my $has_acts = index($line, ' !') >= 0;
    # Most entries are typed keys.
    my $is_typed = $line =~ /^\d+ \d+ keys /;
    return if !$has_acts && $is_typed && $line !~ /:\+x:(?:title|number|multiuser|clear|reset|encoding)\b/;
    my (undef, undef, @words) = split / /, $line;
    my @event = splice @words, 0, $words_of{ $words[0] };
    my @reply = split /:/, shift @words;
    my @checks = map { /^\?(.*)/ ? $1 : () } @words;
    my @acts = map { /^!(.*)/ ? $1 : () } @words;
    my ($given) = map { /^\w+:[+-]x:([a-z]+)$/ ? $1 : () } @checks;
    my $is_done = $reply[0] eq 'ok';
    # It closes all, and the next session goes on from before it.
    if ($is_done && ($given // '') eq 'quit') { $self->{ended} = 'quit'; return }
    $self->see_mode(\@event, \@reply, $given, scalar @acts, "@acts");
    $self->see_command(\@event, $given, @checks) if $is_done && defined $given;
    $self->act($_, \@event, $reply[3]) for @acts;
    $self->free_locks(@acts) if @acts;
    return;
}

# Takes note of what an entry says of the mode.  It is '' if somebody typed multiuser in a prompt, without on or off.
sub see_mode {
    my ($self, $event, $reply, $given, $acts, $said) = @_;
    if ("@$reply" eq 'no multiuser') { $self->{mode} = 'off'; return }
    return unless $reply->[0] eq 'ok';
    if ($event->[0] eq 'attach' || $event->[0] eq 'open') {
        $self->{mode} = 'on' if $event->[1] ne $self->{owner};
        return;
    }
    return unless defined $given;
    if ($event->[0] eq 'command') {
        $self->{mode} = 'on' if $lists{$given};
        $self->{mode} = (words(untext($event->[3])))[1] if $given eq 'multiuser';
    }
    elsif ($given eq 'multiuser') { $self->{mode} = $said =~ /\bparted:/ ? 'off' : '' }
    elsif ($lists{$given} && $acts) { $self->{mode} = 'on' }
    return;
}

# Takes note of what a command that was done says of its window, and of a mark of the owner.
sub see_command {
    my ($self, $event, $given, @checks) = @_;
    my $is_typed = $event->[0] ne 'command';
    my @words = $is_typed ? () : words(untext($event->[3]));
    if (!$is_typed && $event->[1] eq $self->{owner}) {
        my $text = $given eq 'wall' ? $words[1] : '';
        $self->{continues} = $1 if $self->{entries} == 1 && $text =~ /^continues (\S+): /;
        $self->{is_restored} = 1 if $text =~ /^restored: /;
        # The owner's last word before quit.
        $self->{goes_on} = $text =~ /^this session goes on /;
    }
    my ($serial) = map { /^\w+:\+x:([0-9]+)$/ ? $1 : () } @checks;
    my $window = $self->{windows}{ $serial // '' } // return;
    if ($given eq 'title' || $given eq 'number') {
        # A line that was typed in a prompt isn't in the trail.
        @$window{ $given, "unsaid_$given" } = ($words[1] // $window->{$given}, $is_typed);
    }
    # What somebody cleared must not come back with the page: by the number that its program knows.
    $window->{hidden} = $window->{born} if $given =~ /^(?:clear|reset|encoding)$/;
    return;
}

my %does = (
    known => sub {
        my ($self, undef, undef, $user) = @_;
        push @{ $self->{known} }, $user;
        $self->{leaders}{$user} = [];
        my ($on_window, $on_command) = @{ $self->{presets} }{qw(? ??)};
        my @windows = keys %{ $self->{windows} };
        $self->{bits}{$user} = { map({ $_ => $on_command } COMMANDS), map({ $_ => $on_window } @windows) };
    },
    gone => sub {
        my ($self, undef, undef, $user) = @_;
        $self->{known} = [grep { $_ ne $user } @{ $self->{known} }];
        delete $self->{$_}{$user} for qw(leaders bits masks);
        for my $leaders (values %{ $self->{leaders} }) { @$leaders = grep { $_ ne $user } @$leaders }
        delete $_->{$user} for values %{ $self->{masks} };
    },
    set => sub {
        my ($self, undef, undef, $user, $change, $object) = @_;
        $self->{bits}{$user}{$object} = changed($self->bits($user, $object), $change);
    },
    grouped => sub {
        my ($self, undef, undef, $user, $leader) = @_;
        my $leaders = $self->{leaders}{$user};
        @$leaders = () if $leader eq '-' || $self->{edition} == 1;
        push @$leaders, $leader unless $leader eq '-' || grep { $_ eq $leader } @$leaders;
    },
    masked => sub {
        my ($self, undef, undef, $opener, $user, $change) = @_;
        $self->{masks}{$opener}{$user} = changed($self->mask($opener, $user), $change);
    },
    preset => sub {
        my ($self, undef, undef, $kind, $change) = @_;
        $self->{presets}{$kind} = changed($self->{presets}{$kind}, $change);
    },
    opened => sub {
        my ($self, $event, $number, $user, $serial) = @_;
        my $title = untext($event->[5]);
        $self->{opened} = $serial + 1;
        $self->{windows}{$serial} = {
            serial => $serial, opener => $user, opened_as => $title, title => $title, number => $number,
            born => $number, hidden => '', rows => $event->[2], cols => $event->[3], keep => $event->[4], mode => $self->{default},
            holder => $self->{default} eq 'on' ? $user : '',
        };
        $self->{bits}{$_}{$serial} = $_ eq $user ? 7 : $self->mask($user, $_) for $self->others;
    },
    closed => sub { my ($self, undef, undef, $serial) = @_; delete $self->{windows}{$serial} },
    attached => sub { my ($self, undef, undef, $client, $user) = @_; $self->{clients}{$client} = $user },
    parted => sub {
        my ($self, undef, undef, $client) = @_;
        my $user = delete $self->{clients}{$client} // return;
        return if grep { $_ eq $user } values %{ $self->{clients} };
        $_->{holder} = '' for grep { $_->{holder} eq $user } values %{ $self->{windows} };
    },
    entered => sub {
        my ($self, undef, undef, $user, $serial) = @_;
        my $window = $self->{windows}{$serial} // return;
        my $is_free = $window->{mode} eq 'auto' && $window->{holder} eq '';
        $window->{holder} = $user if $is_free && $self->may($user, 'w', $serial);
    },
    left => sub {
        my ($self, undef, undef, $user, $serial) = @_;
        my $window = $self->{windows}{$serial} // return;
        $window->{holder} = '' if $window->{mode} eq 'auto' && $window->{holder} eq $user;
    },
    mode => sub {
        my ($self, undef, undef, $user, $serial, $mode) = @_;
        my $window = $self->{windows}{$serial} // return;
        @$window{qw(mode holder)} = ($mode, $mode eq 'off' ? '' : $user);
    },
    default => sub { my ($self, undef, undef, $mode) = @_; $self->{default} = $mode },
);

# Returns bits after a change, as +r.
sub changed {
    my ($bits, $change) = @_;
    my ($sign, $bit) = split //, $change;
    return $sign eq '+' ? $bits | BIT->{$bit} : $bits & ~BIT->{$bit};
}

# Does an act of an event.  NUMBER is that of the reply.
sub act {
    my ($self, $act, $event, $number) = @_;
    my ($word, @rest) = split /:/, $act;
    $does{$word}->($self, $event, $number, @rest);
    return;
}

# Frees locks whose holder may not type any more, or lost w for a moment.
sub free_locks {
    my ($self, @acts) = @_;
    my %lost = map { /^set:(\w+):-w:([0-9]+)$/ ? ("$1 $2" => 1) : () } @acts;
    for my $window (values %{ $self->{windows} }) {
        my ($holder, $serial) = @$window{qw(holder serial)};
        my $is_held = $holder ne '' && $self->knows($holder) && !$lost{"$holder $serial"};
        $window->{holder} = '' unless $is_held && $self->may($holder, 'w', $serial);
    }
    return;
}

1;
