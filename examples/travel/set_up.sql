CREATE DATABASE flights;
CREATE DATABASE hotels;
CREATE DATABASE payments;
CREATE DATABASE tickets;
\connect flights
CREATE TABLE flights (number integer PRIMARY KEY, free integer NOT NULL CHECK (free >= 0));
INSERT INTO flights SELECT number, 12 FROM generate_series(1, 8) AS number;
\connect hotels
CREATE TABLE hotels (number integer PRIMARY KEY, free integer NOT NULL CHECK (free >= 0));
INSERT INTO hotels SELECT number, 14 FROM generate_series(1, 6) AS number;
\connect payments
CREATE TABLE cards (number integer PRIMARY KEY, most integer NOT NULL, spent integer NOT NULL CHECK (spent <= most));
INSERT INTO cards SELECT number, CASE WHEN number % 10 = 0 THEN 100 ELSE 1000 END, 0 FROM generate_series(1, 400) AS number;
\connect tickets
CREATE TABLE tickets (trip integer PRIMARY KEY, process text NOT NULL);
