# DBM::Deep of Perl: a transaction for each key, with autoflush. The words are those of stores.c.
use strict;
use warnings;
use DBM::Deep;
use IO::Handle;

my (undef, $path, $command, $operations, $keys, $acknowledged) = @ARGV;
my $db = DBM::Deep->new(file => $path, autoflush => 1, locking => 1, num_txns => 4);
if ($command eq 'make') { $db->{none} = '' }
if ($command eq 'work') {
    open my $file, '>>', $acknowledged or die;
    $file->autoflush(1);
    for my $number (1 .. $operations) {
        $db->begin_work;
        $db->{$number % $keys} = "$number:" . chr(97 + $number % 26) x ($number * 37 % 900);
        $db->commit;
        print $file "$number\n";
    }
}
if ($command eq 'list') {
    for (grep { $_ ne 'none' } keys %$db) { print "$_|$db->{$_}\n" }
    print "end\n";
}
