SET SCALE 6 ROUNDING HALF_UP;
INPUT "DS_1" ("Id_1" TEXT, "Me_1" TEXT) KEY ("Id_1");
CREATE TABLE "A" AS
  SELECT "a"."Id_1" AS "Id_1", TRIM("a"."Me_1") AS "Me_1"
  FROM "DS_1" AS "a";
CREATE TABLE "B" AS
  SELECT "a"."Id_1" AS "Id_1", LTRIM("a"."Me_1") AS "Me_1"
  FROM "DS_1" AS "a";
CREATE TABLE "C" AS
  SELECT "a"."Id_1" AS "Id_1", RTRIM("a"."Me_1") AS "Me_1"
  FROM "DS_1" AS "a";
CREATE TABLE "D" AS
  SELECT "a"."Id_1" AS "Id_1", SUBSTR("a"."Me_1", 2, 2) AS "Me_1"
  FROM "DS_1" AS "a";
CREATE TABLE "E" AS
  SELECT "a"."Id_1" AS "Id_1", REPLACE("a"."Me_1", 'b', 'c') AS "Me_1"
  FROM "DS_1" AS "a";
CREATE TABLE "F" AS
  SELECT "a"."Id_1" AS "Id_1", "a"."Me_1" || '!' AS "Me_1"
  FROM "DS_1" AS "a";
CREATE TABLE "G" AS
  SELECT "a"."Id_1" AS "Id_1", '<' || "a"."Me_1" AS "Me_1"
  FROM "DS_1" AS "a";
EXPORT "A" ORDER BY "Id_1";
EXPORT "B" ORDER BY "Id_1";
EXPORT "C" ORDER BY "Id_1";
EXPORT "D" ORDER BY "Id_1";
EXPORT "E" ORDER BY "Id_1";
EXPORT "F" ORDER BY "Id_1";
EXPORT "G" ORDER BY "Id_1";
