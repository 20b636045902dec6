#!/usr/bin/env perl
# compare.pl FILE: each line of FILE is a character's number and the octets of the key of an `a` with that character
# behind it. Prints where Perl makes another key by the same rule: its `fc` for full case folding, `\p{Alphabetic}`
# and the categories Nd, Nl and No for what is kept past ASCII. Perl may have another version of Unicode: a character
# that it doesn't know is unassigned to it, and properties of others may have changed.
use v5.36;
use feature qw(fc unicode_strings);
use Unicode::UCD qw(charinfo);

binmode STDOUT, ':utf8';
my ($same, %other) = (0);
open my $lines, '<', $ARGV[0] or die "$ARGV[0]: $!";
while (my $line = <$lines>) {
    my ($code, @octets) = split ' ', $line;
    my $theirs = join '', grep { /^[A-Za-z0-9 \t]$/ || (ord > 127 && /^[\p{Alphabetic}\p{Nd}\p{Nl}\p{No}]$/) } split //, fc('a' . chr $code);
    $theirs =~ s/[ \t]+/ /g;
    $theirs =~ s/^ | $//g;
    my $ours = pack 'C*', @octets;
    utf8::decode($ours) or die "U+@{[sprintf '%04X', $code]}: no UTF-8";
    if ($ours eq $theirs) { $same++; next }
    my $kind = chr($code) =~ /\p{Cn}/ ? 'unknown to Perl' : 'known to Perl';
    push @{$other{$kind}}, $code;
}
say "$same characters have the same key. Perl has Unicode ", Unicode::UCD::UnicodeVersion(), '.';
for my $kind (sort keys %other) {
    say scalar @{$other{$kind}}, " others, $kind", $kind =~ /unknown/ ? '.' : ':';
    next if $kind =~ /unknown/;
    for my $code (@{$other{$kind}}) { say sprintf('  U+%04X ', $code), charinfo($code)->{category}, ' ', charinfo($code)->{name} }
}
