#!/usr/bin/perl
# Runs mux-trail show --json .. and adds to each entry what is easy to ask for: the user, the window and its title, the
# words of a command, and times of one width.  It needs only perl-base.
use strict;
use warnings;
# With -C of these, handles don't pass bytes on.
BEGIN { exec { $^X } $^X, $0, @ARGV if ${^UNICODE} && grep { defined delete $ENV{$_} } qw(PERL_UNICODE PERL5OPT) }
use File::Basename qw(dirname);
use POSIX ();
use Cwd qw(realpath);
use lib dirname(realpath($0)) . '/..';
use MuxShare::Trail qw(untext words);

$| = 1;
my $pid = open(my $in, '-|', @ARGV) or die "mux-audit: can't run $ARGV[0]: $!\n";
$SIG{$_} = sub { kill 'TERM', $pid; exit 143 } for qw(HUP INT TERM);
my (%user_of, %title_of);

# Returns the strings of a list, such as event or acts.
sub list_of {
    my ($line, $name) = @_;
    my ($list) = $line =~ /"$name":\[((?:"(?:[^"\\]|\\.)*",?)*)\]/ or return;
    return map { s/\\(.)/$1/gr } $list =~ /"((?:[^"\\]|\\.)*)"/g;
}

# Controls, and what can't be seen or turns the direction of text.
my $hidden = qr/[\x00-\x1f\x7f-\x9f\xad\x{61c}\x{180e}\x{200b}-\x{200f}\x{2028}-\x{202e}\x{2060}-\x{206f}\x{feff}]/;

# Returns a text as a string of JSON.
sub quoted {
    my ($text) = @_;
    utf8::decode($text);
    $text =~ s/(["\\])/\\$1/g;
    $text =~ s/($hidden)/sprintf '\\u%04x', ord $1/ge;
    # Tags, of which JSON has halves.
    $text =~ s/([\x{e0001}-\x{e007f}])/sprintf '\\udb40\\u%04x', ord($1) - 0xe0000 + 0xdc00/ge;
    utf8::encode($text);
    return qq("$text");
}

# Returns the words of a command's line, as it has them; of another line, what stands between its blanks.
sub words_of {
    my ($line) = @_;
    my @words = words($line);
    return @words ? @words : split / +/, $line;
}

# Returns the window of an entry: that of its event, its checks or its acts.
sub window_of {
    my ($event, $checks, $acts) = @_;
    return $event->[1] if $event->[0] eq 'closed';
    for (@$checks, @$acts) {
        return $1 if /^[a-z0-9_]+:[-+][rwx]:([0-9]+)$/ || /^[a-z0-9_]+:lock:([0-9]+):/;
        return $1 if /^(?:set:[a-z0-9_]+:[-+][rwx]|opened:[a-z0-9_]+|entered:[a-z0-9_]+|mode:[a-z0-9_]+):([0-9]+)/;
    }
    return;
}

sub follow {
    my ($event, $window, $is_done, $acts, $checks) = @_;
    for (@$acts) {
        $user_of{$1} = $2 if /^attached:([0-9]+):(.*)/;
        delete $user_of{$1} if /^parted:([0-9]+)/;
        delete $title_of{$1} if /^closed:([0-9]+)/;
        $title_of{$1} = untext($event->[5]) if $event->[0] eq 'open' && /^opened:[^:]*:([0-9]+)/;
    }
    return unless $is_done && defined $window && grep { /^\w+:\+x:title$/ } @$checks;
    # What was typed in a prompt isn't in the trail.
    delete $title_of{$window};
    $title_of{$window} = (words(untext($event->[3])))[1] if $event->[0] eq 'command';
}

while (my $line = <$in>) {
    my ($ms) = $line =~ /"ms":([0-9]+)/;
    my $time = POSIX::strftime('%Y-%m-%dT%H:%M:%S', gmtime $ms / 1000) . sprintf '.%03dZ', $ms % 1000;
    my @event = list_of($line, 'event');
    my ($more, @acts) = ('', list_of($line, 'acts'));
    if (@event) {
        my @checks = list_of($line, 'checks');
        my $window = window_of(\@event, \@checks, \@acts);
        my $user = $event[0] =~ /^(?:keys|detach)$/ ? $user_of{$event[1]} : $event[0] eq 'closed' ? undef : $event[1];
        my $title = $event[0] eq 'open' ? untext($event[5]) : defined $window ? $title_of{$window} : undef;
        $more .= ',"user":' . quoted($user) if defined $user;
        $more .= ",\"window\":$window" if defined $window;
        $more .= ',"title":' . quoted($title) if defined $title;
        $more .= ',"words":[' . join(',', map { quoted($_) } words_of(untext($event[3]))) . ']' if $event[0] eq 'command';
        follow(\@event, $window, $line =~ /"reply":"ok/, \@acts, \@checks);
    }
    $line =~ s/"ms":[0-9]+(?:,"time":"[^"]*")?/"ms":$ms,"time":"$time"$more/;
    print($line) || print(STDERR "mux-audit: can't write to standard output: $!\n") && exit 2;
}
close $in;
exit($? & 127 ? 128 + ($? & 127) : $? >> 8);
