# The session itself: muxd with its files in PLACE/own (0700), the shell as window 0, and the owner's commands.
package MuxShare::Session;
use strict;
use warnings;
use Fcntl qw(F_SETFL O_RDONLY O_WRONLY O_CREAT O_EXCL O_NOCTTY O_NONBLOCK);
use POSIX qw(WNOHANG);
use Socket qw(PF_INET SOCK_STREAM INADDR_LOOPBACK pack_sockaddr_in unpack_sockaddr_in);
use MuxShare::Place;
use MuxShare::Wire;

# How long muxd, the shell and the end may take, and a command that ended at once to be gone, in seconds.
use constant { START => 20, STOP => 3, STEP => 0.01, ENDED => 5 };
# How long the shell and its terminals may take to come back when muxd was killed, and how often in a session.
use constant { STAY => 60, OFTEN => 100 };
# How many terminals one user may have, so that no guest takes all 64, and how long a title is at most.
use constant { CLIENTS => 8, LONGEST_TITLE => 40 };
# The requests by which a terminal tells its size and how many bytes wait in it, except on alpha, mips, powerpc and sparc.
use constant { TIOCGWINSZ => 0x5413, FIONREAD => 0x541B };
# How many looks at the shell's terminal find nothing typed until nothing more comes, and how many there are at most.
use constant { QUIET => 10, LOOKS => 500, LOOK => 0.004 };

# PLACE is the folder, OWNER the owner's name in the session, TITLE the shell's, KEEP the number of its kept lines,
# SCRIPTS the folder of mux-shell.
sub new {
    my ($class, %given) = @_;
    my $self = bless { %given, users => [], tokens => {}, clients => {}, news => [] }, $class;
    $self->{own} = "$self->{place}/own";
    @$self{qw(socket shown)} = ("$self->{own}/socket", $self->{title} // '');
    return $self;
}

# Returns the session whose keeper was killed, as far as its files tell: it can be given commands.
sub orphan {
    my ($class, $place) = @_;
    my $self = $class->new(place => $place);
    my ($owner, $token) = content("$self->{own}/users") =~ /^(\S+) (\S+)$/m;
    @$self{qw(owner tokens)} = ($owner, { $owner => $token }) if defined $token;
    return $self;
}

sub owner { return $_[0]{owner} }
sub title { return $_[0]{title} }

# Whether muxd takes connections.
sub is_served { my ($self) = @_; return -S $self->{socket} && defined connected($self->{socket}) }

# Gives a command as the owner, on a window if there is a number.  Returns whether it was done, and the answer.
sub give {
    my ($self, $line, $window) = @_;
    my $owner = $self->{owner} // return (0, 'the session has no owner');
    my ($gone, $said) = ask($self->{socket}, $owner, $self->{tokens}{$owner}, $line, $window);
    my $is_done = ($gone // '') eq DONE;
    log_line("$line: $said") unless $is_done;
    return ($is_done, $said);
}

# Shows a line of text to everybody in the session.
sub tell { my ($self, $text) = @_; return $self->give('wall ' . quoted($text)) }

# Tells everybody if a guest's terminal shows not all columns of the shell.
sub tell_columns {
    my ($self, $account, $columns) = @_;
    my (undef, $all) = $self->size;
    $self->tell("$account sees $columns of $all columns") if $columns < ($all // 0);
}

# Returns whether window 0 is still the shared shell: the owner can renumber and retitle windows.
sub has_shell {
    my ($self) = @_;
    my ($is_done, $said) = $self->give('windows');
    return $is_done && "$said  " =~ /^0 \Q$self->{shown}\E  /;
}

# Shows in the shell's title who may type there, besides the owner.
sub show_typing {
    my ($self, @names) = @_;
    my $who = @names == 1 ? substr($names[0], 0, 20) . ' types' : @names . ' guests type';
    my $more = @names ? " ($who)" : '';
    my $title = $self->{title};
    utf8::decode($title);
    $title = substr($title, 0, LONGEST_TITLE - length $more) . $more;
    utf8::encode($title);
    return if $title eq $self->{shown} || !$self->has_shell;
    my ($is_done) = $self->give('title ' . quoted($title), 0);
    $self->{shown} = $title if $is_done;
}

sub write_private {
    my ($self, $name, $text) = @_;
    my $path = "$self->{own}/$name";
    unlink "$path.new";
    sysopen(my $file, "$path.new", O_WRONLY | O_CREAT | O_EXCL, 0600) or die "can't make $path: $!\n";
    return if write_all($file, $text) && close $file && rename("$path.new", $path);
    my $why = $!;
    unlink "$path.new";
    die "can't write $path: $why\n";
}

# Writes the users' file.  While the session is shut, it has the owner alone.  Returns a fault or ''; then is_unwritten
# holds until it could be written.
sub write_users {
    my ($self) = @_;
    my @names = $self->{is_shut} ? ($self->{owner}) : @{ $self->{users} };
    my $text = join '', map { "$_ $self->{tokens}{$_}\n" } @names;
    $self->{is_unwritten} = !eval { $self->write_private('users', $text); 1 };
    return $self->{is_unwritten} ? $@ =~ s/\n$//r : '';
}

# Whether the users' file has to be written once there is room.
sub is_unwritten { return $_[0]{is_unwritten} }

# Lets nobody in but the owner, or ends this.
sub shut {
    my ($self, $is_shut) = @_;
    return if !!$is_shut == !!$self->{is_shut};
    $self->{is_shut} = $is_shut;
    $self->write_users;
}

# Returns a user's token, 64 hexadecimal digits.  That of an account never leaves the keeper.
sub token { my ($self, $name) = @_; return $self->{tokens}{$name} }

# Gives a user a token, unless they have one.  Returns a fault or ''.
sub add_user {
    my ($self, $name) = @_;
    return '' if $self->{tokens}{$name};
    open(my $random, '<', '/dev/urandom') or return "can't open /dev/urandom: $!";
    my $bytes = read_exactly($random, 32) // return '/dev/urandom gives no bytes';
    $self->{tokens}{$name} = unpack 'H*', $bytes;
    push @{ $self->{users} }, $name;
    my $fault = $self->write_users;
    $self->remove_user($name) if $fault ne '';
    return $fault;
}

# Takes a user's token.  If the file can't be written, it still has the token for a while.
sub remove_user {
    my ($self, $name) = @_;
    delete $self->{tokens}{$name};
    $self->{users} = [grep { $_ ne $name } @{ $self->{users} }];
    $self->write_users;
}

# Waits until a condition holds, until a process that it depends on has ended, or until the time is over.  Returns
# whether the condition holds.
sub wait_for {
    my ($process, $holds, $seconds) = @_;
    for (1 .. $seconds / STEP) {
        return 1 if $holds->();
        return 0 if waitpid($process, WNOHANG) == $process;
        pause(STEP);
    }
    return 0;
}

sub last_line_of_log {
    my ($self) = @_;
    $self->read_news;
    return (split /\n/, content("$self->{own}/log"))[-1] // 'it took too long: try again';
}

# Starts a program whose standard error the keeper reads (read_news), with standard output as OUT, or there as well.
sub start_read {
    my ($self, $out, @words) = @_;
    pipe(my $from, my $to) or die "can't make a pipe: $!\n";
    my $prepare = sub {
        chdir '/';
        POSIX::dup2(fileno($out // $to), 1);
        POSIX::dup2(fileno $to, 2);
        # It outlives a keeper that is killed.
        $SIG{PIPE} = 'IGNORE';
    };
    my $process = spawn($prepare, @words);
    fcntl($from, F_SETFL, O_NONBLOCK) or die "can't read a pipe: $!\n";
    push @{ $self->{news} }, { from => $from, rest => '' };
    return $process;
}

# Returns the pipes that read_news reads.
sub news_pipes { my ($self) = @_; return map { $_->{from} } @{ $self->{news} } }

# Reads what muxd and mux-web have said, at most what a pipe holds: strangers can make them talk without end.  Returns
# the clients that came and went, as [1 or 0, user].
sub read_news {
    my ($self) = @_;
    my ($is_lost, @changes);
    for my $pipe (@{ $self->{news} }) {
        my $count = sysread($pipe->{from}, $pipe->{rest}, 65536, length $pipe->{rest});
        $pipe->{is_over} = defined $count && $count == 0;
        while ($pipe->{rest} =~ s/^(.*)\n//) {
            push @changes, $self->take_line($1);
            $is_lost ||= $1 =~ /^muxd: .* lines were left out/;
        }
        $pipe->{rest} = '' if length $pipe->{rest} > 65536;
    }
    $self->{news} = [grep { !$_->{is_over} } @{ $self->{news} }];
    return (@changes, $is_lost ? $self->count_clients : ());
}

# Takes a line of muxd's or mux-web's log.
sub take_line {
    my ($self, $line) = @_;
    return if $line =~ /^muxd: (?:\S+ a command of |ready$)/;
    log_line($line);
    my ($client, $user, $came) = $line =~ /^muxd: (?:\S+ )?client (\d+) of (\S+) (came|went)/ or return;
    # count_clients may have found it already.
    return if ($came eq 'came') == exists $self->{clients}{$client};
    if ($came eq 'came') { $self->{clients}{$client} = $user }
    else { delete $self->{clients}{$client} }
    return [$came eq 'came', $user];
}

# Asks who is there, since lines of the log were lost.  Returns the changes, as read_news does.
sub count_clients {
    my ($self) = @_;
    my ($is_done, $said) = $self->give('displays');
    return unless $is_done;
    my %there = $said =~ /(?:^|  )(\d+) (\S+) \S+/g;
    my $known = $self->{clients};
    my @changes = map { [0, $known->{$_}] } grep { !exists $there{$_} } sort keys %$known;
    push @changes, map { [1, $there{$_}] } grep { !exists $known->{$_} } sort keys %there;
    $self->{clients} = \%there;
    return @changes;
}

# Returns how many terminals and pages of a user are attached.
sub clients_of { my ($self, $name) = @_; return scalar grep { $_ eq $name } values %{ $self->{clients} } }

sub prepare {
    my ($self) = @_;
    mkdir $self->{own}, 0700 or die "can't make $self->{own}: $!\n";
    open(STDERR, '>>', "$self->{own}/log") or die "can't make $self->{own}/log: $!\n";
    open(STDOUT, '>&', \*STDERR) or die "can't write to $self->{own}/log: $!\n";
    my $fault = $self->add_user($self->{owner});
    die "$fault\n" if $fault ne '';
    $self->write_private('token', "$self->{tokens}{ $self->{owner} }\n");
    # A name that becomes known begins with nothing.
    $self->write_private('first', "multiuser on\naclumask ?-rwx ??-x\n");
}

# Starts muxd, which goes on where the last trail ends.  Trails are as private as the place, and go with it.
sub start_server {
    my ($self) = @_;
    # It must know no guest who has gone.
    my $fault = $self->is_unwritten ? $self->write_users : '';
    die "$fault\n" if $fault ne '';
    my @words = ('--users', "$self->{own}/users", '--setup', "$self->{own}/first", '--trails', "$self->{own}/trails",
        '--again', STAY, '--', '--user-clients', CLIENTS, '--log');
    $self->{server} = $self->start_read(undef, "$self->{scripts}/muxd-run", '--socket', $self->{socket}, @words);
    # Their numbers begin anew.
    $self->{clients} = {};
    return if wait_for($self->{server}, sub { $self->is_served }, START);
    die "can't start muxd: " . $self->last_line_of_log . "\n";
}

# Returns a program of mux, or what the environment names.
sub program { my ($name) = @_; return $ENV{ uc($name =~ tr/-/_/r) } // $name }

# Starts the shell as the first window, by run, which gives it the ENVIRONMENT and the umask of its owner.
sub start_shell {
    my ($self, $rows, $cols, $mask, $environment, @command) = @_;
    $self->write_private('environment', $environment);
    my $prepare = sub {
        umask $mask;
        $ENV{MUX_SHARE} = $self->{place};
        $ENV{PATH} = "$self->{scripts}:$ENV{PATH}";
    };
    my @words = ('--socket', $self->{socket}, '--user', $self->{owner}, '--token', "$self->{own}/token",
        '--rows', $rows, '--cols', $cols, '--keep', $self->{keep}, '--title', $self->{title},
        '--stay', STAY);
    my @in_window = ("$self->{scripts}/mux-door", 'run', $self->{own}, @command);
    $self->{shell} = spawn($prepare, "$self->{scripts}/mux-shell", @words, '--', @in_window);
    return if wait_for($self->{shell}, sub { !-e "$self->{own}/environment" }, START);
    # It may have ended between two looks.
    die "$command[0] ended at once\n" unless -e "$self->{own}/environment";
    die "can't open a window for $command[0]: " . $self->last_line_of_log . "\n";
}

# Becomes the command of the window, with the environment of mux-share's caller and what mux-share and mux-shell add.
sub run {
    my ($own, @command) = @_;
    my $terminal = POSIX::ttyname(0) // '';
    my %added = map { $_ => $ENV{$_} } grep { defined $ENV{$_} } qw(MUX_SESSION MUX_SHARE TERM TERMINFO_DIRS);
    my $colours = $ENV{COLORTERM};
    %ENV = (map({ /^([^=]+)=(.*)/s ? ($1, $2) : () } split /\0/, content("$own/environment")), %added);
    delete @ENV{qw(COLORTERM LINES COLUMNS)};
    $ENV{COLORTERM} = $colours if defined $colours;
    if (open(my $file, '>', "$own/terminal")) { print $file $terminal }
    unlink "$own/environment";
    exec { $command[0] } @command or print STDERR "can't run $command[0]: $!\n";
    POSIX::_exit(127);
}

# Returns the lines and columns of the shell's terminal, or nothing.
sub size {
    my ($self) = @_;
    sysopen(my $terminal, content("$self->{own}/terminal"), O_RDONLY | O_NOCTTY | O_NONBLOCK) or return;
    my $size = pack 'S4', 0, 0, 0, 0;
    ioctl($terminal, TIOCGWINSZ, $size) or return;
    return (unpack 'S4', $size)[0, 1];
}

# Drops what was typed in the shell and no program has read.  More of it is on its way from muxd, which has room for it
# only now.
sub drop_typed {
    my ($self) = @_;
    sysopen(my $terminal, content("$self->{own}/terminal"), O_RDONLY | O_NOCTTY | O_NONBLOCK) or return;
    my $quiet = 0;
    for (1 .. LOOKS) {
        my $waiting = pack 'i', 0;
        ioctl($terminal, FIONREAD, $waiting) or return;
        $quiet = unpack('i', $waiting) ? 0 : $quiet + 1;
        # Also a line without its end, which isn't counted.
        POSIX::tcflush(fileno $terminal, POSIX::TCIFLUSH);
        return if $quiet > QUIET;
        pause(LOOK);
    }
}

# Returns whether a process runs in the shared shell, as far as its terminal tells.
sub is_inside {
    my ($self, $process) = @_;
    my $number = (stat content("$self->{own}/terminal"))[6] // return 0;
    my ($fields) = content("/proc/$process/stat") =~ /.*\) (.*)/s;
    return ((split / /, $fields // '')[4] // 0) == $number;
}

# Returns a port of this host that nobody listens at.
sub free_port {
    socket(my $socket, PF_INET, SOCK_STREAM, 0) or die "can't make a socket: $!\n";
    bind($socket, pack_sockaddr_in(0, INADDR_LOOPBACK)) or die "can't find a port: $!\n";
    return (unpack_sockaddr_in(getsockname $socket))[0];
}

# Starts mux-web, unless it runs, and returns the address of its page.
sub web_address {
    my ($self) = @_;
    return $self->{address} if $self->{address};
    my ($page) = grep { -d } "$self->{scripts}/web", "$self->{scripts}/../share/mux/web";
    die "can't find the page of mux-web beside $self->{scripts}\n" unless $page;
    my $listen = '127.0.0.1:' . free_port();
    pipe(my $from, my $to) or die "can't make a pipe: $!\n";
    my @words = ('--socket', $self->{socket}, '--listen', $listen, '--page', $page, '--log');
    $self->{web} = $self->start_read($to, program('mux-web'), @words);
    close $to;
    if (!sysread($from, my $ready, 64)) {
        delete $self->{web};
        die "can't start mux-web: " . $self->last_line_of_log . "\n";
    }
    # By this it is found if the keeper is killed.
    return $self->{address} = "http://$listen/" if eval { $self->write_private('web', "$self->{web}\n"); 1 };
    $self->end_web;
    die $@;
}

sub end_web { my ($self) = @_; kill 'TERM', $self->{web} if $self->{web} }

# Returns whether the command ended by itself a moment after it began.
sub ended_at_once { my ($self) = @_; return !wait_for($self->{shell}, sub { 0 }, ENDED) && !kill(0, $self->{shell}) }

# Returns whether a process that has ended was mux-web, whose port anybody can take then.
sub is_web {
    my ($self, $process) = @_;
    return 0 if $process != ($self->{web} // 0);
    delete @$self{qw(web address)};
    return 1;
}

# Notes that a process has ended, and returns whether this ends the session: so it is if muxd has status 0, after quit.
sub is_ended_by {
    my ($self, $process, $status) = @_;
    return $process == $self->{shell} if $process != ($self->{server} // 0);
    $self->{server} = undef;
    return 1 if $status == 0 || ++$self->{starts} > OFTEN;
    log_line('muxd has ended: the session goes on');
    @$self{qw(lost tried)} = (now(), 0);
    return 0;
}

# Whether muxd has ended and isn't there again.
sub is_lost { return $_[0]{lost} }

# Starts muxd anew if it has ended, at most once a second: a disk may be full.  Returns whether the session goes on,
# whose shell waits for STAY seconds.
sub go_on {
    my ($self) = @_;
    return 1 if !$self->{lost} || now() < $self->{tried} + 1;
    $self->{tried} = now();
    if (eval { $self->start_server; 1 }) {
        @$self{qw(lost is_anew)} = (0, 1);
        return 1;
    }
    log_line($@ =~ s/\n$//r);
    kill 'TERM', $self->{server} if $self->{server} && $self->is_own($self->{server});
    $self->{server} = undef;
    return now() < $self->{lost} + STAY;
}

# Whether muxd was started anew since the last call.
sub is_anew { return delete $_[0]{is_anew} }

# Ends the session and removes its files.
sub end {
    my ($self) = @_;
    $self->end_web;
    kill 'TERM', $self->{shell} if $self->{shell} && !$self->{server};
    $self->give('quit') if $self->{server} && -S $self->{socket};
    # muxd doesn't wait for somebody who reads what it says.
    $self->{news} = [];
    wait_for($self->{server}, sub { 0 }, STOP) if $self->{server};
    $self->remove;
}

# Only this account may write in the place, and the folder around lets no other account rename it.
sub remove { my ($self) = @_; system 'rm', '-rf', '--', $self->{place} }

# Returns whether a process is one that this session started.
sub is_own {
    my ($self, $process) = @_;
    return scalar grep { $_ eq $self->{socket} } split /\0/, content("/proc/$process/cmdline");
}

# Sends everybody away but the owner, for good: what a session whose keeper was killed needs.
sub close_to_guests {
    my ($self) = @_;
    my ($web) = content("$self->{own}/web") =~ /^(\d+)$/m;
    kill 'TERM', $web if defined $web && $self->is_own($web);
    my ($is_done) = $self->give('multiuser off');
    $self->drop_typed if $is_done;
    return $is_done;
}

# Ends the server that a killed keeper left, and removes its files.
sub end_orphan {
    my ($self) = @_;
    $self->close_to_guests;
    $self->give('quit') if $self->is_served;
    for (1 .. STOP / STEP) { -S $self->{socket} ? pause(STEP) : last }
    $self->remove;
}

# Waits until the keeper is gone, which ends the pipe LIFE.  Then nobody keeps time and looks who watches, so it sends
# all guests away, and ends the session when the shell ends.  It never ends the shell: somebody works there.
sub guard {
    my ($self, $life) = @_;
    until (defined(my $count = sysread($life, my $none, 1))) { }
    log_line('the keeper was killed: all guests are sent away');
    pause(0.2) until $self->close_to_guests || !$self->is_served;
    $self->tell('the keeper of this shell was killed, so nobody else can see it any more');
    pause(1) while $self->is_own($self->{shell}) && $self->is_served;
    # Somebody else may have swept the place by now.
    my $lock = lock_place($self->{place}) or return;
    $self->end_orphan;
}

1;
