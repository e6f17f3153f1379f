/* read_gnustep FILE [parse]: reads FILE with GNUstep's Foundation and prints its value as plist_value.py spells it, or
   nothing with the word `parse`.
   The exit status is 1 if Foundation refuses the file, or reads it as another format, and 2 if it raises an exception. */
#import <Foundation/Foundation.h>
#include <math.h>
#include <stdio.h>
#include <stdlib.h>

enum { NODES = 4000, DEPTH = 200 };

static int nodes;

static NSString *hex_of(NSData *data) {
    const unsigned char *octets = [data bytes];
    NSMutableString *text = [NSMutableString string];
    for (NSUInteger i = 0; i < [data length]; i++) [text appendFormat:@"%02x", octets[i]];
    return text;
}

/* The UTF-8 of a string, an unpaired surrogate as three bytes. */
static NSString *hex_of_text(NSString *string) {
    NSMutableString *text = [NSMutableString string];
    for (NSUInteger i = 0; i < [string length]; i++) {
        unsigned c = [string characterAtIndex:i];
        if (c >= 0xd800 && c < 0xdc00 && i + 1 < [string length]) {
            unsigned next = [string characterAtIndex:i + 1];
            if (next >= 0xdc00 && next < 0xe000) {
                c = 0x10000 + ((c - 0xd800) << 10) + (next - 0xdc00);
                i++;
            }
        }
        unsigned last = 0x80 | (c & 63), middle = 0x80 | (c >> 6 & 63);
        if (c < 0x80) [text appendFormat:@"%02x", c];
        else if (c < 0x800) [text appendFormat:@"%02x%02x", 0xc0 | c >> 6, last];
        else if (c < 0x10000) [text appendFormat:@"%02x%02x%02x", 0xe0 | c >> 12, middle, last];
        else [text appendFormat:@"%02x%02x%02x%02x", 0xf0 | c >> 18, 0x80 | (c >> 12 & 63), middle, last];
    }
    return text;
}

static NSString *spell_number(NSNumber *number) {
    const char type = [number objCType][0];
    if (number == [NSNumber numberWithBool:YES]) return @"true";
    if (number == [NSNumber numberWithBool:NO]) return @"false";
    if (type == 'f' || type == 'd') {
        double value = [number doubleValue];
        unsigned long long bits;
        memcpy(&bits, &value, sizeof bits);
        return isnan(value) ? @"real nan" : [NSString stringWithFormat:@"real %016llx", bits];
    }
    return [NSString stringWithFormat:@"int %@", number];
}

static NSString *spell(id value, int depth);

static NSString *spell_all(NSString *name, NSArray *members, int depth, BOOL sorted) {
    NSMutableArray *spelled = [NSMutableArray array];
    for (id member in members) [spelled addObject:spell(member, depth + 1)];
    if (sorted) [spelled sortUsingSelector:@selector(compare:)];
    return [NSString stringWithFormat:@"%@(%@)", name, [spelled componentsJoinedByString:@","]];
}

static NSString *spell(id value, int depth) {
    if (++nodes > NODES || depth > DEPTH) {
        puts("large");
        exit(0);
    }
    if (value == [NSNull null]) return @"null";
    if ([value isKindOfClass:[NSNumber class]]) return spell_number(value);
    if ([value isKindOfClass:[NSString class]]) return [NSString stringWithFormat:@"text %@", hex_of_text(value)];
    if ([value isKindOfClass:[NSData class]]) return [NSString stringWithFormat:@"data %@", hex_of(value)];
    if ([value isKindOfClass:[NSDate class]])
        return [NSString stringWithFormat:@"date %.0f", floor([value timeIntervalSinceReferenceDate])];
    if ([value isKindOfClass:[NSArray class]]) return spell_all(@"array", value, depth, NO);
    if ([value isKindOfClass:[NSSet class]]) return spell_all(@"set", [value allObjects], depth, YES);
    if ([value isKindOfClass:[NSDictionary class]]) {
        NSMutableArray *pairs = [NSMutableArray array];
        for (id key in value) {
            NSString *name = [key isKindOfClass:[NSString class]] ? hex_of_text(key) : spell(key, depth + 1);
            [pairs addObject:[NSString stringWithFormat:@"%@=%@", name, spell([value objectForKey:key], depth + 1)]];
        }
        [pairs sortUsingSelector:@selector(compare:)];
        return [NSString stringWithFormat:@"dict(%@)", [pairs componentsJoinedByString:@","]];
    }
    return [NSString stringWithFormat:@"other %@", [value class]];
}

int main(int count, char **words) {
    NSAutoreleasePool *pool = [NSAutoreleasePool new];
    if (count < 2) return 3;
    @try {
        NSData *octets = [NSData dataWithContentsOfFile:[NSString stringWithUTF8String:words[1]]];
        NSPropertyListFormat format = 0;
        NSError *error = nil;
        id value = [NSPropertyListSerialization propertyListWithData:octets options:0 format:&format error:&error];
        if (!value || format != NSPropertyListBinaryFormat_v1_0) {
            fputs(value ? "read as another format\n" : "no plist\n", stderr);
            return 1;
        }
        if (count == 2) puts([spell(value, 0) UTF8String]);
    } @catch (NSException *exception) {
        fprintf(stderr, "%s: %s\n", [[exception name] UTF8String], [[exception reason] UTF8String]);
        return 2;
    }
    fflush(stdout);
    [pool drain];
    return 0;
}
