-- SPDX-License-Identifier: Apache-2.0
-- The characters of Unicode, in SQL: which conditions choose zones, and that a table of all rows has the same ones. The file is
-- the one of Debian's package unicode-data, which has semicolons and no header. In the folder of a release:
--
--     cp /usr/share/unicode/UnicodeData.txt .
--     ./zone_map index UnicodeData.txt --delimiter ';' --rows 256
--     sqlite3 < bindings/sqlite/characters.sql

.load lib/zone_map
create virtual table characters using zone_map('UnicodeData.txt');

select "$1", "$2" from characters where "$1" between '2600' and '26FF' and "$2" like 'SNOW%';
explain query plan select * from characters where "$1" between '2600' and '26FF' and "$2" like 'SNOW%';

-- The same rows, read by SQLite itself.
create table rows(code, name, category, combining, direction, decomposition, digit, other_digit, number, mirrored, old_name, comment, upper, lower, title);
.mode list
.separator ;
.import UnicodeData.txt rows

-- How many rows one has and the other has not: of a range of codes, of names and of categories.
select count(*) from (select "$1" from characters where "$1" between '2600' and '26FF' except select code from rows where code between '2600' and '26FF');
select count(*) from (select code from rows where name like 'GREEK%' except select "$1" from characters where "$2" like 'GREEK%');
select (select count(*) from characters where "$3" in ('Lu', 'Ll')) - (select count(*) from rows where category in ('Lu', 'Ll'));
