# Perl's Unicode::Collate over the lines of standard input, for comparison with uca: peer.pl key|compare|order, as in peer.c.
use strict;
use warnings;
use Unicode::Collate;
binmode STDIN, ":utf8";
binmode STDOUT, ":utf8";

my $collator = Unicode::Collate->new(table => "allkeys.txt", level => 3, variable => "Non-ignorable", normalization => "NFD");
my @words = qw(equal greater less);

my %work = (
    key => sub {
        while (my $line = <STDIN>) {
            chomp $line;
            print uc join(" ", unpack "(H2)*", $collator->getSortKey($line)), "\n";
        }
    },
    compare => sub {
        defined(my $last = <STDIN>) or return;
        chomp $last;
        while (my $line = <STDIN>) {
            chomp $line;
            print $words[$collator->cmp($last, $line)], "\n";
            $last = $line;
        }
    },
    order => sub {
        chomp(my @lines = <STDIN>);
        print map { "$_\n" } $collator->sort(@lines);
    },
);
$work{ $ARGV[0] }->();
