#!/usr/bin/env perl
# Writes texts of languages from CLDR, for comparing collators: cldr_lines.pl CLDR FOLDER writes a file TAG.lines for each
# FOLDER/TAG.rules. The texts are the locale's exemplar characters, alone, in capitals and in pairs; the words of its names of
# languages, countries, cities, months and currencies; and the strings of CLDR's own rules in TAG.text, alone and within words. It
# reads XML with XML::LibXML, from Debian's package libxml-libxml-perl.
use strict;
use warnings;
use utf8;
no warnings 'nonchar';
use XML::LibXML;
my ($cldr, $folder) = @ARGV;
my $most_words = 4000;
my $few = 75; # exemplars of which all pairs are taken

# The locale's file in main, or that of its nearest parent locale, or undef.
sub main_of {
    my ($tag) = @_;
    (my $locale = $tag) =~ s/-u-co-.*//;
    $locale =~ tr/-/_/;
    $locale = 'root' if $locale eq 'und';
    $locale =~ s/_[^_]+$// or return undef while !-e "$cldr/main/$locale.xml";
    return XML::LibXML->load_xml(location => "$cldr/main/$locale.xml", load_ext_dtd => 0, no_network => 1);
}

# The characters and strings of a set of exemplars.
sub exemplars_of {
    my ($set) = @_;
    my @found;
    $set =~ s/^\[|\]$//g;
    while ($set =~ /\G\s*(?:\{([^}]+)\}|(\\u[0-9A-Fa-f]{4}|\\.|[^\s\\{])(?:-(\\u[0-9A-Fa-f]{4}|\\.|[^\s\\{]))?)/gc) {
        my ($string, $first, $last) = ($1, $2, $3);
        for ($string, $first, $last) { s/\\u([0-9A-Fa-f]{4})/chr hex $1/ge, s/\\(.)/$1/g if defined }
        push @found, defined $string ? $string : defined $last ? map { chr } ord $first .. ord $last : $first;
    }
    return @found;
}

# Words of the names in a file of main; if there are many, some of them.
sub words_of {
    my ($xml) = @_;
    my %seen;
    my $names = join ' | ', map { "//${_}[not(*)]" } qw(language territory script variant month day displayName exemplarCity currency);
    for my $name ($xml->findnodes($names)) {
        $seen{$_} = 1 for grep { /\p{L}/ } split /[\s()\[\],;:.\/{}0-9]+/, $name->textContent;
    }
    my @words = sort keys %seen;
    my $step = @words / $most_words;
    return $step <= 1 ? @words : map { $words[$_ * $step] } 0 .. $most_words - 1;
}

# The strings of CLDR's own rules, whether or not they could be converted; of long lists, some.
sub strings_of {
    my ($path) = @_;
    open my $file, '<:utf8', $path or die;
    local $/;
    my $text = <$file>;
    my @strings;
    while ($text =~ /\[suppressContractions \[(.*?)\]/g) { push @strings, map { ($_, "$_\x{306}") } split //, $1 =~ s/[ -]//gr }
    $text =~ s/(?<!')#.*//g;
    $text =~ s/\[(?:[^\[\]]|\[(?:[^\[\]]|\[[^\]]*\])*\])*\]//g;
    while ($text =~ /(\*?)((?:'[^']*'|[^\s&<=\/|*'])+)/g) {
        my ($is_list, $string) = ($1, $2);
        $string =~ s/''/\x{0}/g;
        $string =~ tr/'//d;
        $string =~ tr/\x{0}\x{200E}\x{200F}/'/d;
        push @strings, $is_list ? split(//, length $string > 500 ? substr $string, 0, 500 : $string) : $string;
    }
    return @strings;
}

for my $path (sort glob "$folder/*.rules") {
    my ($tag) = $path =~ m{([^/]+)\.rules$};
    my $xml = main_of($tag);
    my (@letters, %lines);
    for my $set ($xml ? $xml->findnodes('//exemplarCharacters') : ()) {
        my @found = exemplars_of($set->textContent);
        push @letters, @found unless $set->hasAttribute('type');
        $lines{$_} = $lines{uc $_} = $lines{ucfirst lc $_} = 1 for @found;
    }
    my @strings = strings_of("$folder/$tag.text");
    if (@letters <= $few) { for my $first (@letters) { $lines{"$first$_"} = 1 for @letters } }
    $lines{$_} = $lines{"a$_"} = $lines{"${_}b"} = 1 for @strings;
    $lines{$_} = 1 for $xml ? words_of($xml) : ();
    open my $out, '>:utf8', "$folder/$tag.lines" or die;
    print $out map { "$_\n" } grep { !/[\n\r]/ && length } sort keys %lines;
    close $out or die;
}
